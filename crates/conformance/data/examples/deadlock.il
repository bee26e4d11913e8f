// Two threads enter two monitors in opposite orders, and each waits for the one that the other holds.
// A blocked step counts too, so a budget of 40 steps for each thread ends both: no program runs for ever.
// Run: ./cilvm replay examples/deadlock.il examples/deadlock.schedule --budget 40
.assembly extern mscorlib {}
.assembly extern cilvm {} .assembly deadlock {}

.class public auto ansi Other extends [cilvm]Cilvm.Thread
{
    .method public specialname rtspecialname instance void .ctor() cil managed
    {
        .maxstack 1
        ldarg.0
        call instance void [cilvm]Cilvm.Thread::.ctor()
        ret
    }

    .method public virtual instance void Run() cil managed
    {
        .maxstack 2
        ldsfld object Program::right
        ldsfld object Program::left
        call void Program::EnterBoth(object, object)
        ret
    }
}

.class public auto ansi Program extends [mscorlib]System.Object
{
    .field public static object left
    .field public static object right

    .method public static void EnterBoth(object first, object second) cil managed
    {
        .maxstack 1
        ldarg.0
        call void [mscorlib]System.Threading.Monitor::Enter(object)
        ldarg.1
        call void [mscorlib]System.Threading.Monitor::Enter(object)

        ldstr "has both"
        call void [mscorlib]System.Console::WriteLine(string)

        ldarg.1
        call void [mscorlib]System.Threading.Monitor::Exit(object)
        ldarg.0
        call void [mscorlib]System.Threading.Monitor::Exit(object)
        ret
    }

    .method public static void Main() cil managed
    {
        .entrypoint
        .maxstack 2

        newobj instance void [mscorlib]System.Object::.ctor()
        stsfld object Program::left
        newobj instance void [mscorlib]System.Object::.ctor()
        stsfld object Program::right

        newobj instance void Other::.ctor()
        callvirt instance void [cilvm]Cilvm.Thread::Start()

        ldsfld object Program::left
        ldsfld object Program::right
        call void Program::EnterBoth(object, object)
        ret
    }
}
