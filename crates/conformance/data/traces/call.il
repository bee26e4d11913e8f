.assembly extern mscorlib {}
.class public auto ansi P extends [mscorlib]System.Object {
 .method public static int32 difference(int32, int32) cil managed {
  .maxstack 2
  ldarg.0
  ldarg.1
  sub
  ret
 }
 .method public static void Main() cil managed {
  .entrypoint
  .maxstack 2
  ldc.i4 9
  ldc.i4 4
  call int32 P::difference(int32, int32)
  call void [mscorlib]System.Console::WriteLine(int32)
  ret
 }
}
