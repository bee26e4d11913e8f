// A string[] is assignable to an object[], so each store checks the element type of the array itself when it runs.
// Storing an object that isn't a string raises an exception, which ends the thread: nothing after it runs, and the status is 3.
// Run: ./cilvm replay examples/arrays.il examples/arrays.schedule
.assembly extern mscorlib {} .assembly arrays {}

.class public auto ansi Program extends [mscorlib]System.Object
{
    .method public static void Main() cil managed
    {
        .entrypoint
        .maxstack 3
        .locals init (string[] names, object[] things)

        ldc.i4.2                // names = new string[2]
        newarr string
        stloc.0
        ldloc.0                 // things = names, which is the same array
        stloc.1

        ldloc.1                 // things[0] = "Ada" succeeds
        ldc.i4.0
        ldstr "Ada"
        stelem.ref

        ldloc.0                 // print names[0]
        ldc.i4.0
        ldelem.ref
        call void [mscorlib]System.Console::WriteLine(string)

        ldloc.1                 // things[1] = new object() is verified, and raises
        ldc.i4.1                // System.ArrayTypeMismatchException when it runs
        newobj instance void [mscorlib]System.Object::.ctor()
        stelem.ref

        ldstr "never printed"
        call void [mscorlib]System.Console::WriteLine(string)
        ret
    }
}
