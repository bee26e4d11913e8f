.assembly extern mscorlib {}
.class public auto ansi P extends [mscorlib]System.Object {
 .method public static void Main() cil managed {
  .entrypoint
  .maxstack 3
  .locals init (int32, int32, int32, int32, int64, string, object, int32[])
  ldloc.0  call void [mscorlib]System.Console::WriteLine(int32)
  ldloc.3  call void [mscorlib]System.Console::WriteLine(int32)
  ldloc 4  call void [mscorlib]System.Console::WriteLine(int64)
  ldloc 5  call void [mscorlib]System.Console::WriteLine(string)
  ldloc 6  ldnull  ceq  call void [mscorlib]System.Console::WriteLine(int32)
  ldloc 7  ldnull  ceq  call void [mscorlib]System.Console::WriteLine(int32)
  ldc.i4 10  stloc.0
  ldc.i4 11  stloc.1
  ldc.i4 12  stloc.2
  ldc.i4 13  stloc.3
  ldc.i8 14000000000  stloc 4
  ldstr "fifteen"  stloc 5
  ldloc 5  stloc 6
  ldloc.0  call void [mscorlib]System.Console::WriteLine(int32)
  ldloc.1  call void [mscorlib]System.Console::WriteLine(int32)
  ldloc.2  call void [mscorlib]System.Console::WriteLine(int32)
  ldloc.3  call void [mscorlib]System.Console::WriteLine(int32)
  ldloc 4  call void [mscorlib]System.Console::WriteLine(int64)
  ldloc 5  call void [mscorlib]System.Console::WriteLine(string)
  ldloc 5  ldloc 6  ceq  call void [mscorlib]System.Console::WriteLine(int32)
  nop  ldc.i4 21  dup  call void [mscorlib]System.Console::WriteLine(int32)  call void [mscorlib]System.Console::WriteLine(int32)
  ldc.i4 22  ldc.i4 23  pop  call void [mscorlib]System.Console::WriteLine(int32)
  ldstr "twice"  dup  call void [mscorlib]System.Console::WriteLine(string)  call void [mscorlib]System.Console::WriteLine(string)
  ldc.i4.0  call void [mscorlib]System.Console::WriteLine(int32)
  ldc.i4.1  call void [mscorlib]System.Console::WriteLine(int32)
  ldc.i4.2  call void [mscorlib]System.Console::WriteLine(int32)
  ldc.i4.3  call void [mscorlib]System.Console::WriteLine(int32)
  ldc.i4.4  call void [mscorlib]System.Console::WriteLine(int32)
  ldc.i4.5  call void [mscorlib]System.Console::WriteLine(int32)
  ldc.i4.6  call void [mscorlib]System.Console::WriteLine(int32)
  ldc.i4.7  call void [mscorlib]System.Console::WriteLine(int32)
  ldc.i4.8  call void [mscorlib]System.Console::WriteLine(int32)
  ldc.i4.m1  call void [mscorlib]System.Console::WriteLine(int32)
  ldstr "a \"quoted\" \\ and\ta tab"  call void [mscorlib]System.Console::WriteLine(string)
  ret
 }
}
