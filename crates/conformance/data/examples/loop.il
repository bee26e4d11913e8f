// Adds the numbers from 1 to 10: two locals, which begin as 0, and a branch back to a label while a comparison holds.
// An iteration is eleven steps. Ten iterations and the three instructions after the loop are the 113 steps of the schedule.
// Run: ./cilvm replay examples/loop.il examples/loop.schedule
.assembly extern mscorlib {} .assembly loop {}

.class public auto ansi Program extends [mscorlib]System.Object
{
    .method public static void Main() cil managed
    {
        .entrypoint
        .maxstack 2
        .locals init (int32 number, int32 total)

    NEXT:
        ldloc.0                 // number = number + 1
        ldc.i4.1
        add
        stloc.0

        ldloc.1                 // total = total + number
        ldloc.0
        add
        stloc.1

        ldloc.0                 // again, while number < 10
        ldc.i4 10
        blt NEXT

        ldloc.1
        call void [mscorlib]System.Console::WriteLine(int32)
        ret
    }
}
