// Adds up numbers without end: a loop of nine instructions, for hosts/c/speed.c.
.assembly extern mscorlib {} .assembly speed {}
.class public auto ansi Program extends [mscorlib]System.Object {
  .method public static void Main() cil managed {
    .entrypoint
    .maxstack 2
    .locals init (int32 number, int32 sum)
NEXT:
    ldloc.0
    ldc.i4.1
    add
    stloc.0
    ldloc.1
    ldloc.0
    add
    stloc.1
    br NEXT
  }
}
