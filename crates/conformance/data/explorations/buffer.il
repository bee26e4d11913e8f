// A buffer of one element. The producer spins while it is full, and the consumer while it is empty: some schedules never end, and there are few states.
// Run: ./cilvm explore crates/conformance/data/explorations/buffer.il
.assembly extern mscorlib {}
.assembly extern cilvm {} .assembly buffer {}

.class public auto ansi Producer extends [cilvm]Cilvm.Thread
{
    .method public specialname rtspecialname instance void .ctor() cil managed
    {
        .maxstack 1
        ldarg.0
        call instance void [cilvm]Cilvm.Thread::.ctor()
        ret
    }

    .method public virtual instance void Run() cil managed
    {
        .maxstack 2
        .locals init (int32 item)
    NEXT:
        ldsfld object Program::gate
        call void [mscorlib]System.Threading.Monitor::Enter(object)
        ldsfld int32 Program::count
        ldc.i4.0
        ble FREE
        ldsfld object Program::gate
        call void [mscorlib]System.Threading.Monitor::Exit(object)
        br NEXT

    FREE:
        ldloc.0
        stsfld int32 Program::place
        ldc.i4.1
        stsfld int32 Program::count
        ldsfld object Program::gate
        call void [mscorlib]System.Threading.Monitor::Exit(object)
        ldloc.0
        ldc.i4.1
        add
        stloc.0
        ldloc.0
        ldc.i4.2
        blt NEXT
        ret
    }
}

.class public auto ansi Consumer extends [cilvm]Cilvm.Thread
{
    .method public specialname rtspecialname instance void .ctor() cil managed
    {
        .maxstack 1
        ldarg.0
        call instance void [cilvm]Cilvm.Thread::.ctor()
        ret
    }

    .method public virtual instance void Run() cil managed
    {
        .maxstack 2
        .locals init (int32 taken)
    NEXT:
        ldsfld object Program::gate
        call void [mscorlib]System.Threading.Monitor::Enter(object)
        ldsfld int32 Program::count
        ldc.i4.0
        bgt FULL
        ldsfld object Program::gate
        call void [mscorlib]System.Threading.Monitor::Exit(object)
        br NEXT

    FULL:
        ldsfld int32 Program::sum
        ldsfld int32 Program::place
        add
        stsfld int32 Program::sum
        ldc.i4.0
        stsfld int32 Program::count
        ldsfld object Program::gate
        call void [mscorlib]System.Threading.Monitor::Exit(object)
        ldloc.0
        ldc.i4.1
        add
        stloc.0
        ldloc.0
        ldc.i4.2
        blt NEXT
        ret
    }
}

.class public auto ansi Program extends [mscorlib]System.Object
{
    .field public static object gate
    .field public static int32 count
    .field public static int32 place
    .field public static int32 sum

    .method public static void Main() cil managed
    {
        .entrypoint
        .maxstack 1
        .locals init (class Producer producer, class Consumer consumer)

        newobj instance void [mscorlib]System.Object::.ctor()
        stsfld object Program::gate
        newobj instance void Producer::.ctor()
        stloc.0
        newobj instance void Consumer::.ctor()
        stloc.1
        ldloc.0
        callvirt instance void [cilvm]Cilvm.Thread::Start()
        ldloc.1
        callvirt instance void [cilvm]Cilvm.Thread::Start()
        ldloc.0
        callvirt instance void [cilvm]Cilvm.Thread::Join()
        ldloc.1
        callvirt instance void [cilvm]Cilvm.Thread::Join()

        ldsfld int32 Program::sum
        call void [mscorlib]System.Console::WriteLine(int32)
        ret
    }
}
