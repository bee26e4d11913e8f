// Two threads write to one array while the collector copies it. One may have the address of the old copy, the other that of the
// new one: until the old copy is given back, each store reaches both copies.
// Run: ./cilvm replay examples/writers.il examples/writers.schedule
.assembly extern mscorlib {}
.assembly extern cilvm {} .assembly writers {}

.class public auto ansi Writer extends [cilvm]Cilvm.Thread
{
    .field public int32 place

    .method public specialname rtspecialname instance void .ctor(int32 place) cil managed
    {
        .maxstack 2
        ldarg.0
        call instance void [cilvm]Cilvm.Thread::.ctor()
        ldarg.0
        ldarg.1
        stfld int32 Writer::place
        ret
    }

    // Adds 1 to its own element of the array, eight times.
    .method public virtual instance void Run() cil managed
    {
        .maxstack 4
        .locals init (int32[] counts, int32 turn)

        ldsfld int32[] Program::counts
        stloc.0

    NEXT:                       // seventeen steps an iteration
        ldloc.0
        ldarg.0
        ldfld int32 Writer::place
        ldloc.0
        ldarg.0
        ldfld int32 Writer::place
        ldelem.i4
        ldc.i4.1
        add
        stelem.i4
        ldloc.1
        ldc.i4.1
        add
        stloc.1
        ldloc.1
        ldc.i4.8
        blt NEXT
        ret
    }
}

.class public auto ansi Program extends [mscorlib]System.Object
{
    .field public static int32[] counts

    .method public static void Main() cil managed
    {
        .entrypoint
        .maxstack 2
        .locals init (class Writer first, class Writer second)

        ldc.i4.2
        newarr int32
        stsfld int32[] Program::counts

        ldc.i4.0
        newobj instance void Writer::.ctor(int32)
        stloc.0
        ldc.i4.1
        newobj instance void Writer::.ctor(int32)
        stloc.1

        ldloc.0
        callvirt instance void [cilvm]Cilvm.Thread::Start()
        ldloc.1
        callvirt instance void [cilvm]Cilvm.Thread::Start()

        ldloc.0
        callvirt instance void [cilvm]Cilvm.Thread::Join()
        ldloc.1
        callvirt instance void [cilvm]Cilvm.Thread::Join()

        ldsfld int32[] Program::counts
        ldc.i4.0
        ldelem.i4
        call void [mscorlib]System.Console::WriteLine(int32)
        ldsfld int32[] Program::counts
        ldc.i4.1
        ldelem.i4
        call void [mscorlib]System.Console::WriteLine(int32)
        ret
    }
}
