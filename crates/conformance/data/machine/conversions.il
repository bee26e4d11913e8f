.assembly extern mscorlib {}
.class public auto ansi P extends [mscorlib]System.Object {
 .method public static void Main() cil managed {
  .entrypoint
  .maxstack 1
  ldc.i8 2147483648  conv.i4  call void [mscorlib]System.Console::WriteLine(int32)
  ldc.i8 4294967295  conv.i4  call void [mscorlib]System.Console::WriteLine(int32)
  ldc.i8 4294967296  conv.i4  call void [mscorlib]System.Console::WriteLine(int32)
  ldc.i8 -1  conv.i4  call void [mscorlib]System.Console::WriteLine(int32)
  ldc.i8 9223372036854775807  conv.i4  call void [mscorlib]System.Console::WriteLine(int32)
  ldc.i8 -9223372036854775808  conv.i4  call void [mscorlib]System.Console::WriteLine(int32)
  ldc.i4 -1  conv.i8  call void [mscorlib]System.Console::WriteLine(int64)
  ldc.i4 2147483647  conv.i8  call void [mscorlib]System.Console::WriteLine(int64)
  ldc.i4 -2147483648  conv.i8  call void [mscorlib]System.Console::WriteLine(int64)
  ldc.i4 -9  conv.i4  call void [mscorlib]System.Console::WriteLine(int32)
  ldc.i8 1099511627776  conv.i8  call void [mscorlib]System.Console::WriteLine(int64)
  ldc.i4 3  newarr int64  ldlen  conv.i8  call void [mscorlib]System.Console::WriteLine(int64)
  ldc.i4 4  newarr object  ldlen  conv.i4  call void [mscorlib]System.Console::WriteLine(int32)
  ret
 }
}
