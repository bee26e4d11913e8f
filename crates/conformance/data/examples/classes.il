// Two classes override one virtual method of their base: callvirt runs the method of the object's own class.
// Show takes any Shape: it prints the area of a square of 5, and then of a rectangle of 3 by 4.
// Run: ./cilvm replay examples/classes.il examples/classes.schedule
.assembly extern mscorlib {} .assembly classes {}

.class public abstract auto ansi Shape extends [mscorlib]System.Object
{
    .method public specialname rtspecialname instance void .ctor() cil managed
    {
        .maxstack 1
        ldarg.0
        call instance void [mscorlib]System.Object::.ctor()
        ret
    }

    // Each class of shapes that is not abstract must override this.
    .method public newslot abstract virtual instance int32 Area() cil managed {}
}

.class public auto ansi Square extends Shape
{
    .field public int32 side

    // Argument 0 is the new object. The base's constructor comes first.
    .method public specialname rtspecialname instance void .ctor(int32 side) cil managed
    {
        .maxstack 2
        ldarg.0
        call instance void Shape::.ctor()
        ldarg.0
        ldarg.1
        stfld int32 Square::side
        ret
    }

    .method public virtual instance int32 Area() cil managed
    {
        .maxstack 2
        ldarg.0
        ldfld int32 Square::side
        ldarg.0
        ldfld int32 Square::side
        mul
        ret
    }
}

.class public auto ansi Rectangle extends Shape
{
    .field public int32 width
    .field public int32 height

    .method public specialname rtspecialname instance void .ctor(int32 width, int32 height) cil managed
    {
        .maxstack 2
        ldarg.0
        call instance void Shape::.ctor()
        ldarg.0
        ldarg.1
        stfld int32 Rectangle::width
        ldarg.0
        ldarg.2
        stfld int32 Rectangle::height
        ret
    }

    .method public virtual instance int32 Area() cil managed
    {
        .maxstack 2
        ldarg.0
        ldfld int32 Rectangle::width
        ldarg.0
        ldfld int32 Rectangle::height
        mul
        ret
    }
}

.class public auto ansi Program extends [mscorlib]System.Object
{
    .method public static void Show(class Shape shape) cil managed
    {
        .maxstack 1
        ldarg.0
        callvirt instance int32 Shape::Area()
        call void [mscorlib]System.Console::WriteLine(int32)
        ret
    }

    .method public static void Main() cil managed
    {
        .entrypoint
        .maxstack 2

        ldc.i4.5
        newobj instance void Square::.ctor(int32)
        call void Program::Show(class Shape)

        ldc.i4.3
        ldc.i4.4
        newobj instance void Rectangle::.ctor(int32, int32)
        call void Program::Show(class Shape)
        ret
    }
}
