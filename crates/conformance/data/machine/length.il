.assembly extern mscorlib {}
.class public auto ansi P extends [mscorlib]System.Object {
 .method public static void Main() cil managed {
  .entrypoint
  .maxstack 2
  ldc.i4.3
  newarr int32
  ldlen
  conv.i4
  call void [mscorlib]System.Console::WriteLine(int32)
  ret
 }
}
