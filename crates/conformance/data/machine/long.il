.assembly extern mscorlib {}
.class public auto ansi P extends [mscorlib]System.Object {
 .method public static void Main() cil managed {
  .entrypoint
  .maxstack 2
  ldc.i8 9223372036854775807
  ldc.i8 2
  div
  call void [mscorlib]System.Console::WriteLine(int64)
  ldc.i8 -7
  ldc.i8 4
  rem
  call void [mscorlib]System.Console::WriteLine(int64)
  ldc.i4.m1
  conv.i8
  ldc.i4 60
  shr.un
  call void [mscorlib]System.Console::WriteLine(int64)
  ldc.i8 4294967298
  conv.i4
  call void [mscorlib]System.Console::WriteLine(int32)
  ldc.i8 5
  ldc.i8 6
  clt
  call void [mscorlib]System.Console::WriteLine(int32)
  ret
 }
}
