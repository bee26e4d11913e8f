.assembly extern mscorlib {}
.class public auto ansi P extends [mscorlib]System.Object {
 .method public static void Main() cil managed {
  .entrypoint
  .maxstack 2
  ldc.i8 4294967296
  ldc.i8 2147483648
  mul.ovf
  pop
  ret
 }
}
