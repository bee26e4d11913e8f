// Four philosophers sit at a round table with a fork between two. Each takes the fork on one side and then the one on the other.
// Run: ./cilvm explore crates/conformance/data/explorations/philosophers.il --until deadlock
.assembly extern mscorlib {}
.assembly extern cilvm {} .assembly philosophers {}

.class public auto ansi Philosopher extends [cilvm]Cilvm.Thread
{
    .field public object left
    .field public object right

    .method public specialname rtspecialname instance void .ctor(object left, object right) cil managed
    {
        .maxstack 2
        ldarg.0
        call instance void [cilvm]Cilvm.Thread::.ctor()
        ldarg.0
        ldarg.1
        stfld object Philosopher::left
        ldarg.0
        ldarg.2
        stfld object Philosopher::right
        ret
    }

    .method public virtual instance void Run() cil managed
    {
        .maxstack 1
        ldarg.0
        ldfld object Philosopher::left
        call void [mscorlib]System.Threading.Monitor::Enter(object)
        ldarg.0
        ldfld object Philosopher::right
        call void [mscorlib]System.Threading.Monitor::Enter(object)
        ldarg.0
        ldfld object Philosopher::right
        call void [mscorlib]System.Threading.Monitor::Exit(object)
        ldarg.0
        ldfld object Philosopher::left
        call void [mscorlib]System.Threading.Monitor::Exit(object)
        ret
    }
}

.class public auto ansi Program extends [mscorlib]System.Object
{
    .method public static void Main() cil managed
    {
        .entrypoint
        .maxstack 2
        .locals init (object a, object b, object c, object d)

        newobj instance void [mscorlib]System.Object::.ctor()
        stloc.0
        newobj instance void [mscorlib]System.Object::.ctor()
        stloc.1
        newobj instance void [mscorlib]System.Object::.ctor()
        stloc.2
        newobj instance void [mscorlib]System.Object::.ctor()
        stloc.3

        ldloc.0
        ldloc.1
        newobj instance void Philosopher::.ctor(object, object)
        callvirt instance void [cilvm]Cilvm.Thread::Start()
        ldloc.1
        ldloc.2
        newobj instance void Philosopher::.ctor(object, object)
        callvirt instance void [cilvm]Cilvm.Thread::Start()
        ldloc.2
        ldloc.3
        newobj instance void Philosopher::.ctor(object, object)
        callvirt instance void [cilvm]Cilvm.Thread::Start()
        ldloc.3
        ldloc.0
        newobj instance void Philosopher::.ctor(object, object)
        callvirt instance void [cilvm]Cilvm.Thread::Start()
        ret
    }
}
