// A thread divides by a field that another thread sets, and stores the quotient in a field of null: it ends by one of two exceptions.
// Run: ./cilvm explore crates/conformance/data/explorations/two_faults.il
.assembly extern mscorlib {}
.assembly extern cilvm {} .assembly two_faults {}

.class public auto ansi Divider extends [cilvm]Cilvm.Thread
{
    .field public int32 quotient

    .method public specialname rtspecialname instance void .ctor() cil managed
    {
        .maxstack 1
        ldarg.0
        call instance void [cilvm]Cilvm.Thread::.ctor()
        ret
    }

    .method public virtual instance void Run() cil managed
    {
        .maxstack 3
        ldnull
        ldc.i4 6
        ldsfld int32 Program::divisor
        div
        stfld int32 Divider::quotient
        ret
    }
}

.class public auto ansi Program extends [mscorlib]System.Object
{
    .field public static int32 divisor

    .method public static void Main() cil managed
    {
        .entrypoint
        .maxstack 1
        newobj instance void Divider::.ctor()
        callvirt instance void [cilvm]Cilvm.Thread::Start()
        ldc.i4 2
        stsfld int32 Program::divisor
        ret
    }
}
