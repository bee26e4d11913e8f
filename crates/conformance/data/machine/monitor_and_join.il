.assembly extern mscorlib {}
.assembly extern cilvm {}
.class public auto ansi T extends [cilvm]Cilvm.Thread {
 .method public specialname rtspecialname instance void .ctor() cil managed {
  .maxstack 1
  ldarg.0
  call instance void [cilvm]Cilvm.Thread::.ctor()
  ret
 }
 .method public virtual instance void Run() cil managed {
  .maxstack 2
  ldsfld object P::lock
  call void [mscorlib]System.Threading.Monitor::Enter(object)
  ldsfld int32 P::total
  ldc.i4.1
  add
  stsfld int32 P::total
  ldsfld object P::lock
  call void [mscorlib]System.Threading.Monitor::Exit(object)
  ret
 }
}
.class public auto ansi P extends [mscorlib]System.Object {
 .field public static object lock
 .field public static int32 total
 .method public static void Main() cil managed {
  .entrypoint
  .maxstack 1
  .locals init (class T)
  newobj instance void [mscorlib]System.Object::.ctor()
  stsfld object P::lock
  newobj instance void T::.ctor()
  stloc.0
  ldloc.0
  callvirt instance void [cilvm]Cilvm.Thread::Start()
  ldsfld object P::lock
  call void [mscorlib]System.Threading.Monitor::Enter(object)
  ldc.i4.1
  stsfld int32 P::total
  ldsfld object P::lock
  call void [mscorlib]System.Threading.Monitor::Exit(object)
  ldloc.0
  callvirt instance void [cilvm]Cilvm.Thread::Join()
  ldsfld int32 P::total
  call void [mscorlib]System.Console::WriteLine(int32)
  ret
 }
}
