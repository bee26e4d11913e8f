.assembly extern mscorlib {}
.class public auto ansi P extends [mscorlib]System.Object {
 .method public static int32 down(int32) cil managed {
  .maxstack 2
  ldarg.0
  brfalse END
  ldarg.0
  ldc.i4.1
  sub
  call int32 P::down(int32)
  ldc.i4.2
  add
  ret
 END: ldc.i4.0
  ret
 }
 .method public static void Main() cil managed {
  .entrypoint
  .maxstack 1
  ldc.i4.3
  call int32 P::down(int32)
  call void [mscorlib]System.Console::WriteLine(int32)
  ret
 }
}
