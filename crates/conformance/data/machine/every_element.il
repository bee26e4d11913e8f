.assembly extern mscorlib {}
.class public auto ansi P extends [mscorlib]System.Object {
 .method public static void Main() cil managed {
  .entrypoint
  .maxstack 5
  .locals init (int32[] numbers, int64[] wides, string[] texts)
  ldc.i4.3  newarr int32  stloc.0
  ldloc.0  ldc.i4.2  ldc.i4 -7  stelem.i4
  ldloc.0  ldc.i4.0  ldloc.0  ldc.i4.2  ldelem.i4  stelem.i4
  ldloc.0  ldc.i4.0  ldelem.i4  call void [mscorlib]System.Console::WriteLine(int32)
  ldloc.0  ldc.i4.1  ldelem.i4  call void [mscorlib]System.Console::WriteLine(int32)
  ldloc.0  ldc.i4.2  ldelem.i4  call void [mscorlib]System.Console::WriteLine(int32)
  ldc.i4.3  newarr int64  stloc.1
  ldloc.1  ldc.i4.2  ldc.i8 9000000000  stelem.i8
  ldloc.1  ldc.i4.0  ldloc.1  ldc.i4.2  ldelem.i8  stelem.i8
  ldloc.1  ldc.i4.0  ldelem.i8  call void [mscorlib]System.Console::WriteLine(int64)
  ldloc.1  ldc.i4.1  ldelem.i8  call void [mscorlib]System.Console::WriteLine(int64)
  ldloc.1  ldc.i4.2  ldelem.i8  call void [mscorlib]System.Console::WriteLine(int64)
  ldc.i4.3  newarr string  stloc.2
  ldloc.2  ldc.i4.2  ldstr "text"  stelem.ref
  ldloc.2  ldc.i4.0  ldloc.2  ldc.i4.2  ldelem.ref  stelem.ref
  ldloc.2  ldc.i4.0  ldelem.ref  call void [mscorlib]System.Console::WriteLine(string)
  ldloc.2  ldc.i4.1  ldelem.ref  call void [mscorlib]System.Console::WriteLine(string)
  ldloc.2  ldc.i4.2  ldelem.ref  call void [mscorlib]System.Console::WriteLine(string)
  ldloc.0  ldc.i4.2  newarr object  ldlen  ldelem.i4  call void [mscorlib]System.Console::WriteLine(int32)
  ldloc.1  ldlen  newarr int64  ldlen  conv.i4  call void [mscorlib]System.Console::WriteLine(int32)
  ldc.i4.0  newarr int32  ldlen  conv.i4  call void [mscorlib]System.Console::WriteLine(int32)
  ret
 }
}
