// The collector works while a thread runs: each iteration of the loop is in another phase of a cycle.
// In the schedule `g` is one step of the collector, and `a0` thread 0's acknowledgement of what the collector has posted.
// Run: ./cilvm replay examples/collection.il examples/collection.schedule
.assembly extern mscorlib {} .assembly collection {}

.class public auto ansi Counter extends [mscorlib]System.Object
{
    .field public int32 sum

    .method public specialname rtspecialname instance void .ctor() cil managed
    {
        .maxstack 1
        ldarg.0
        call instance void [mscorlib]System.Object::.ctor()
        ret
    }
}

.class public auto ansi Program extends [mscorlib]System.Object
{
    .method public static void Main() cil managed
    {
        .entrypoint
        .maxstack 3
        .locals init (class Counter counter, int32 i)

        newobj instance void Counter::.ctor()
        stloc.0
        ldc.i4.1
        stloc.1

    NEXT:                       // thirteen steps an iteration
        ldloc.0                 // counter.sum = counter.sum + i
        ldloc.0
        ldfld int32 Counter::sum
        ldloc.1
        add
        stfld int32 Counter::sum
        ldloc.1                 // i = i + 1
        ldc.i4.1
        add
        stloc.1
        ldloc.1                 // while i <= 10
        ldc.i4 10
        ble NEXT

        ldloc.0
        ldfld int32 Counter::sum
        call void [mscorlib]System.Console::WriteLine(int32)
        ret
    }
}
