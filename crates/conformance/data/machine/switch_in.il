.assembly extern mscorlib {}
.class public auto ansi P extends [mscorlib]System.Object {
 .method public static void Main() cil managed {
  .entrypoint
  .maxstack 2
  ldc.i4.1
  switch (A, B)
  ldc.i4.7
  call void [mscorlib]System.Console::WriteLine(int32)
  A: ret
  B: ldc.i4.8
  call void [mscorlib]System.Console::WriteLine(int32)
  ret
 }
}
