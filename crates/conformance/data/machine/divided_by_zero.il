.assembly extern mscorlib {}
.class public auto ansi P extends [mscorlib]System.Object {
 .method public static void Main() cil managed {
  .entrypoint
  .maxstack 2
  ldc.i4.1
  ldc.i4.0
  div
  pop
  ret
 }
}
