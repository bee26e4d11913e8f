// Two threads add to one sum: a monitor admits one of them at a time, and Join waits until a thread has ended.
// The schedule preempts the first between its load and its store, and the second has to wait at Enter.
// Run: ./cilvm replay examples/threads.il examples/threads.schedule
.assembly extern mscorlib {}
.assembly extern cilvm {} .assembly threads {}

.class public auto ansi Worker extends [cilvm]Cilvm.Thread
{
    .field public int32 amount

    .method public specialname rtspecialname instance void .ctor(int32 amount) cil managed
    {
        .maxstack 2
        ldarg.0
        call instance void [cilvm]Cilvm.Thread::.ctor()
        ldarg.0
        ldarg.1
        stfld int32 Worker::amount
        ret
    }

    // A thread that is started begins here.
    .method public virtual instance void Run() cil managed
    {
        .maxstack 2
        ldsfld object Program::gate
        call void [mscorlib]System.Threading.Monitor::Enter(object)

        ldsfld int32 Program::sum
        ldarg.0
        ldfld int32 Worker::amount
        add
        stsfld int32 Program::sum

        ldsfld object Program::gate
        call void [mscorlib]System.Threading.Monitor::Exit(object)
        ret
    }
}

.class public auto ansi Program extends [mscorlib]System.Object
{
    .field public static object gate
    .field public static int32 sum

    .method public static void Main() cil managed
    {
        .entrypoint
        .maxstack 1
        .locals init (class Worker first, class Worker second)

        newobj instance void [mscorlib]System.Object::.ctor()
        stsfld object Program::gate

        ldc.i4 30
        newobj instance void Worker::.ctor(int32)
        stloc.0
        ldc.i4 12
        newobj instance void Worker::.ctor(int32)
        stloc.1

        ldloc.0
        callvirt instance void [cilvm]Cilvm.Thread::Start()
        ldloc.1
        callvirt instance void [cilvm]Cilvm.Thread::Start()

        ldloc.0
        callvirt instance void [cilvm]Cilvm.Thread::Join()
        ldloc.1
        callvirt instance void [cilvm]Cilvm.Thread::Join()

        ldsfld int32 Program::sum
        call void [mscorlib]System.Console::WriteLine(int32)
        ret
    }
}
