// An array of arrays holds references to its rows: each row has its own length, is allocated on its own, and is null until then.
// Row n has n + 1 numbers, each the sum of the two above it. Two elements may refer to one row.
// Run: ./cilvm replay examples/table.il examples/table.schedule
.assembly extern mscorlib {} .assembly table {}

.class public auto ansi Program extends [mscorlib]System.Object
{
    // rows[n][k], or 0 beyond the ends of row n
    .method public static int32 At(int32[][] rows, int32 n, int32 k) cil managed
    {
        .maxstack 2
        ldarg.2                 // k < 0
        ldc.i4.0
        blt NONE
        ldarg.2                 // k > n
        ldarg.1
        bgt NONE
        ldarg.0
        ldarg.1
        ldelem.ref              // an int32[]
        ldarg.2
        ldelem.i4
        ret
        NONE: ldc.i4.0
        ret
    }

    .method public static void Main() cil managed
    {
        .entrypoint
        .maxstack 6
        .locals init (int32[][] rows, int32 n, int32 k)

        ldc.i4.5                // rows = new int32[5][]
        newarr int32[]
        stloc.0

        ldloc.0                 // rows[0] = new int32[] { 1 }
        ldc.i4.0
        ldc.i4.1
        newarr int32
        stelem.ref
        ldloc.0
        ldc.i4.0
        ldelem.ref
        ldc.i4.0
        ldc.i4.1
        stelem.i4

        ldc.i4.1
        stloc.1
        ROW: ldloc.0            // rows[n] = new int32[n + 1]
        ldloc.1
        ldloc.1
        ldc.i4.1
        add
        newarr int32
        stelem.ref

        ldc.i4.0
        stloc.2
        NUMBER: ldloc.0         // rows[n][k] = rows[n - 1][k - 1] + rows[n - 1][k]
        ldloc.1
        ldelem.ref
        ldloc.2
        ldloc.0
        ldloc.1
        ldc.i4.1
        sub
        ldloc.2
        ldc.i4.1
        sub
        call int32 Program::At(int32[][], int32, int32)
        ldloc.0
        ldloc.1
        ldc.i4.1
        sub
        ldloc.2
        call int32 Program::At(int32[][], int32, int32)
        add
        stelem.i4

        ldloc.2
        ldc.i4.1
        add
        stloc.2
        ldloc.2
        ldloc.1
        ble NUMBER
        ldloc.1
        ldc.i4.1
        add
        stloc.1
        ldloc.1
        ldc.i4.5
        blt ROW

        ldloc.0                 // print rows[4][2]
        ldc.i4.4
        ldc.i4.2
        call int32 Program::At(int32[][], int32, int32)
        call void [mscorlib]System.Console::WriteLine(int32)

        ldloc.0                 // rows[0] = rows[4]: two elements, one row
        ldc.i4.0
        ldloc.0
        ldc.i4.4
        ldelem.ref
        stelem.ref
        ldloc.0                 // print the length of rows[0]
        ldc.i4.0
        ldelem.ref
        ldlen
        conv.i4
        call void [mscorlib]System.Console::WriteLine(int32)
        ret
    }
}
