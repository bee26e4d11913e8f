.assembly extern mscorlib {}
.class public auto ansi P extends [mscorlib]System.Object {
 .method public static void Main() cil managed {
  .entrypoint
  .maxstack 3
  .locals init (int32[], int64[])
  ldc.i4.2
  newarr int32
  stloc.0
  ldc.i4.2
  newarr int64
  stloc.1
  ldloc.0
  ldc.i4.1
  ldc.i4 -9
  stelem.i4
  ldloc.1
  ldc.i4.0
  ldc.i8 9000000000
  stelem.i8
  ldloc.0
  ldc.i4.1
  ldelem.i4
  call void [mscorlib]System.Console::WriteLine(int32)
  ldloc.1
  ldc.i4.0
  ldelem.i8
  call void [mscorlib]System.Console::WriteLine(int64)
  ldloc.0
  ldc.i4.0
  ldelem.i4
  call void [mscorlib]System.Console::WriteLine(int32)
  ret
 }
}
