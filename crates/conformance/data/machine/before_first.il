.assembly extern mscorlib {}
.class public auto ansi P extends [mscorlib]System.Object {
 .method public static void Main() cil managed {
  .entrypoint
  .maxstack 2
  ldc.i4.0
  newarr int32
  ldc.i4.m1
  ldelem.i4
  pop
  ret
 }
}
