// Twenty arrays of four words each are more than a space of 64 words holds, but the program refers only to the last one.
// Sixteen arrays fill the space; then the schedule has a whole cycle of the collector, which makes room for the others.
// Run: ./cilvm replay examples/full.il examples/full.schedule --words 64
.assembly extern mscorlib {} .assembly full {}

.class public auto ansi Program extends [mscorlib]System.Object
{
    .method public static void Main() cil managed
    {
        .entrypoint
        .maxstack 3
        .locals init (int32[] last, int32 i)

        ldc.i4.1
        stloc.1

    NEXT:                       // fourteen steps an iteration
        ldc.i4.1                // last = new int[1]: three words of a header, and one of its element
        newarr int32
        stloc.0
        ldloc.0                 // last[0] = i
        ldc.i4.0
        ldloc.1
        stelem.i4
        ldloc.1                 // i = i + 1
        ldc.i4.1
        add
        stloc.1
        ldloc.1                 // while i <= 20
        ldc.i4 20
        ble NEXT

        ldloc.0
        ldc.i4.0
        ldelem.i4
        call void [mscorlib]System.Console::WriteLine(int32)
        ret
    }
}
