// Adds 2 and 3 and prints the sum: values are pushed on a stack, and an instruction takes its operands from there.
// A step of a thread is one instruction, so five steps of thread 0 run the whole program.
// Run: ./cilvm replay examples/add.il examples/add.schedule
.assembly extern mscorlib {} .assembly Add {}

.class public auto ansi Program extends [mscorlib]System.Object
{
    .method public static void Main() cil managed
    {
        .entrypoint
        .maxstack 2

        ldc.i4 2
        ldc.i4.3
        add
        call void [mscorlib]System.Console::WriteLine(int32)
        ret
    }
}
