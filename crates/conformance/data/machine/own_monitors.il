.assembly extern mscorlib {}
.class public auto ansi P extends [mscorlib]System.Object {
 .method public static void Main() cil managed {
  .entrypoint
  .maxstack 1
  .locals init (int32[] numbers)
  ldstr "lock"  call void [mscorlib]System.Threading.Monitor::Enter(object)
  ldstr "lock"  call void [mscorlib]System.Threading.Monitor::Enter(object)
  ldc.i4.1  newarr int32  stloc.0
  ldloc.0  call void [mscorlib]System.Threading.Monitor::Enter(object)
  ldstr "lock"  call void [mscorlib]System.Threading.Monitor::Exit(object)
  ldloc.0  call void [mscorlib]System.Threading.Monitor::Exit(object)
  ldstr "lock"  call void [mscorlib]System.Threading.Monitor::Exit(object)
  ldc.i4.1  call void [mscorlib]System.Console::WriteLine(int32)
  ldstr "lock"  call void [mscorlib]System.Threading.Monitor::Exit(object)
  ret
 }
}
