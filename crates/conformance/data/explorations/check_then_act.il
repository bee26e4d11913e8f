// A thread compares a field with null and then uses it, while another thread stores null between the two loads.
// Run: ./cilvm explore crates/conformance/data/explorations/check_then_act.il
.assembly extern mscorlib {}
.assembly extern cilvm {} .assembly check_then_act {}

.class public auto ansi Box extends [mscorlib]System.Object
{
    .field public int32 number

    .method public specialname rtspecialname instance void .ctor() cil managed
    {
        .maxstack 1
        ldarg.0
        call instance void [mscorlib]System.Object::.ctor()
        ret
    }
}

.class public auto ansi User extends [cilvm]Cilvm.Thread
{
    .method public specialname rtspecialname instance void .ctor() cil managed
    {
        .maxstack 1
        ldarg.0
        call instance void [cilvm]Cilvm.Thread::.ctor()
        ret
    }

    .method public virtual instance void Run() cil managed
    {
        .maxstack 1
        ldsfld class Box Program::box
        brfalse END
        ldsfld class Box Program::box
        ldfld int32 Box::number
        pop
    END:
        ret
    }
}

.class public auto ansi Clearer extends [cilvm]Cilvm.Thread
{
    .method public specialname rtspecialname instance void .ctor() cil managed
    {
        .maxstack 1
        ldarg.0
        call instance void [cilvm]Cilvm.Thread::.ctor()
        ret
    }

    .method public virtual instance void Run() cil managed
    {
        .maxstack 1
        ldnull
        stsfld class Box Program::box
        ret
    }
}

.class public auto ansi Program extends [mscorlib]System.Object
{
    .field public static class Box box

    .method public static void Main() cil managed
    {
        .entrypoint
        .maxstack 1
        .locals init (class User user, class Clearer clearer)

        newobj instance void Box::.ctor()
        stsfld class Box Program::box
        newobj instance void User::.ctor()
        stloc.0
        newobj instance void Clearer::.ctor()
        stloc.1
        ldloc.0
        callvirt instance void [cilvm]Cilvm.Thread::Start()
        ldloc.1
        callvirt instance void [cilvm]Cilvm.Thread::Start()
        ldloc.0
        callvirt instance void [cilvm]Cilvm.Thread::Join()
        ldloc.1
        callvirt instance void [cilvm]Cilvm.Thread::Join()

        ldc.i4.1
        call void [mscorlib]System.Console::WriteLine(int32)
        ret
    }
}
