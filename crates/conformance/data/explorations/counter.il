// Two threads add 1 to a sum three times each, under a monitor: no addition is lost.
// Run: ./cilvm explore crates/conformance/data/explorations/counter.il
.assembly extern mscorlib {}
.assembly extern cilvm {} .assembly counter {}

.class public auto ansi Adder extends [cilvm]Cilvm.Thread
{
    .method public specialname rtspecialname instance void .ctor() cil managed
    {
        .maxstack 1
        ldarg.0
        call instance void [cilvm]Cilvm.Thread::.ctor()
        ret
    }

    .method public virtual instance void Run() cil managed
    {
        .maxstack 2
        .locals init (int32 count)
    NEXT:
        ldsfld object Program::gate
        call void [mscorlib]System.Threading.Monitor::Enter(object)
        ldsfld int32 Program::sum
        ldc.i4.1
        add
        stsfld int32 Program::sum
        ldsfld object Program::gate
        call void [mscorlib]System.Threading.Monitor::Exit(object)
        ldloc.0
        ldc.i4.1
        add
        stloc.0
        ldloc.0
        ldc.i4.3
        blt NEXT
        ret
    }
}

.class public auto ansi Program extends [mscorlib]System.Object
{
    .field public static object gate
    .field public static int32 sum

    .method public static void Main() cil managed
    {
        .entrypoint
        .maxstack 1
        .locals init (class Adder first, class Adder second)

        newobj instance void [mscorlib]System.Object::.ctor()
        stsfld object Program::gate
        newobj instance void Adder::.ctor()
        stloc.0
        newobj instance void Adder::.ctor()
        stloc.1
        ldloc.0
        callvirt instance void [cilvm]Cilvm.Thread::Start()
        ldloc.1
        callvirt instance void [cilvm]Cilvm.Thread::Start()
        ldloc.0
        callvirt instance void [cilvm]Cilvm.Thread::Join()
        ldloc.1
        callvirt instance void [cilvm]Cilvm.Thread::Join()

        ldsfld int32 Program::sum
        call void [mscorlib]System.Console::WriteLine(int32)
        ret
    }
}
