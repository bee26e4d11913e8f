// Two threads add 1 to a sum without a monitor. If both load it before one has stored it, one addition is lost.
// Run: ./cilvm explore crates/conformance/data/explorations/lost_update.il
.assembly extern mscorlib {}
.assembly extern cilvm {} .assembly lost_update {}

.class public auto ansi Adder extends [cilvm]Cilvm.Thread
{
    .method public specialname rtspecialname instance void .ctor() cil managed
    {
        .maxstack 1
        ldarg.0
        call instance void [cilvm]Cilvm.Thread::.ctor()
        ret
    }

    .method public virtual instance void Run() cil managed
    {
        .maxstack 2
        ldsfld int32 Program::sum
        ldc.i4.1
        add
        stsfld int32 Program::sum
        ret
    }
}

.class public auto ansi Program extends [mscorlib]System.Object
{
    .field public static int32 sum

    .method public static void Main() cil managed
    {
        .entrypoint
        .maxstack 1
        .locals init (class Adder first, class Adder second)

        newobj instance void Adder::.ctor()
        stloc.0
        newobj instance void Adder::.ctor()
        stloc.1
        ldloc.0
        callvirt instance void [cilvm]Cilvm.Thread::Start()
        ldloc.1
        callvirt instance void [cilvm]Cilvm.Thread::Start()
        ldloc.0
        callvirt instance void [cilvm]Cilvm.Thread::Join()
        ldloc.1
        callvirt instance void [cilvm]Cilvm.Thread::Join()

        ldsfld int32 Program::sum
        call void [mscorlib]System.Console::WriteLine(int32)
        ret
    }
}
