.assembly extern mscorlib {}
.class public auto ansi P extends [mscorlib]System.Object {
 .method public static void Main() cil managed {
  .entrypoint
  .maxstack 1
  AGAIN: ldc.i4 20
  newarr int64
  pop
  br AGAIN
 }
}
