.assembly extern mscorlib {}
.class public auto ansi P extends [mscorlib]System.Object {
 .method public static void Main() cil managed {
  .entrypoint
  .maxstack 2
  .locals init (int32)
  ldc.i4.3
  stloc.0
  AGAIN: ldloc.0
  call void [mscorlib]System.Console::WriteLine(int32)
  ldloc.0
  ldc.i4.1
  sub
  stloc.0
  ldloc.0
  brtrue AGAIN
  ret
 }
}
