.assembly extern mscorlib {}
.class public auto ansi P extends [mscorlib]System.Object {
 .method public static void Main() cil managed {
  .entrypoint
  .maxstack 2
  ldc.i4 12a
  pop
  ret
 }
}
