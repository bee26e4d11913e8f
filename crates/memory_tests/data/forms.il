// Most forms of a class, a method and an instruction; two threads, a monitor, and a space that grows.
.assembly extern mscorlib {}
.assembly extern cilvm {} .assembly forms {}

.class interface public abstract auto ansi IShape
{
    .method public newslot abstract virtual instance int32 Area() cil managed {}
}

.class public abstract auto ansi Shape extends [mscorlib]System.Object implements IShape
{
    .method public specialname rtspecialname instance void .ctor() cil managed
    {
        .maxstack 1
        ldarg.0
        call instance void [mscorlib]System.Object::.ctor()
        ret
    }

    .method public newslot virtual instance int32 Area() cil managed
    {
        .maxstack 1
        ldc.i4.0
        ret
    }
}

.class public auto ansi Square extends Shape
{
    .field public int32 side
    .field public class Square next

    .method public specialname rtspecialname instance void .ctor(int32 side, class Square next) cil managed
    {
        .maxstack 2
        ldarg.0
        call instance void Shape::.ctor()
        ldarg.0
        ldarg.1
        stfld int32 Square::side
        ldarg.0
        ldarg.2
        stfld class Square Square::next
        ret
    }

    .method public virtual instance int32 Area() cil managed
    {
        .maxstack 2
        ldarg.0
        ldfld int32 Square::side
        ldarg.0
        ldfld int32 Square::side
        mul
        ret
    }
}

.class public auto ansi Worker extends [cilvm]Cilvm.Thread
{
    .method public specialname rtspecialname instance void .ctor() cil managed
    {
        .maxstack 1
        ldarg.0
        call instance void [cilvm]Cilvm.Thread::.ctor()
        ret
    }

    .method public virtual instance void Run() cil managed
    {
        .maxstack 2
        ldstr "gate"
        call void [mscorlib]System.Threading.Monitor::Enter(object)
        ldc.i4 25
        call void Program::Print(int32)
        ldstr "gate"
        call void [mscorlib]System.Threading.Monitor::Exit(object)
        ret
    }
}

.class public auto ansi Program extends [mscorlib]System.Object
{
    .field public static class Square list
    .field public static int32[][] rows

    .method public static void Print(int32 number) cil managed
    {
        .maxstack 1
        ldarg.0
        call void [mscorlib]System.Console::WriteLine(int32)
        ret
    }

    .method public static void Main() cil managed
    {
        .entrypoint
        .maxstack 4
        .locals init (int32 count, class Worker worker, class IShape shape, int64 sum)

        newobj instance void Worker::.ctor()
        stloc.1
        ldloc.1
        callvirt instance void [cilvm]Cilvm.Thread::Start()

        ldc.i4.2
        newarr int32[]
        stsfld int32[][] Program::rows
        ldsfld int32[][] Program::rows
        ldc.i4.1
        ldc.i4.3
        newarr int32
        stelem.ref

    NEXT:
        ldloc.0
        ldsfld class Square Program::list
        newobj instance void Square::.ctor(int32, class Square)
        stsfld class Square Program::list
        ldloc.0
        ldc.i4.1
        add
        stloc.0
        ldloc.0
        ldc.i4 20
        blt NEXT

        ldsfld class Square Program::list
        stloc.2
        ldloc.2
        callvirt instance int32 IShape::Area()
        call void Program::Print(int32)
        ldloc.1
        callvirt instance void [cilvm]Cilvm.Thread::Join()
        ldsfld int32[][] Program::rows
        ldc.i4.0
        ldelem.ref
        brtrue NEXT
        ret
    }
}
