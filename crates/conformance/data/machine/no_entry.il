.assembly extern mscorlib {}
.class public auto ansi P extends [mscorlib]System.Object {
 .method public static void Main() cil managed {
  .maxstack 2
  ldc.i4 2
  ldc.i4.3
  add
  call void [mscorlib]System.Console::WriteLine(int32)
  ret
 }
}
