.assembly extern mscorlib {}
.assembly extern cilvm {}
.class public auto ansi T extends [cilvm]Cilvm.Thread {
 .method public specialname rtspecialname instance void .ctor() cil managed {
  .maxstack 1
  ldarg.0
  call instance void [cilvm]Cilvm.Thread::.ctor()
  ret
 }
 .method public virtual instance void Run() cil managed {
  .maxstack 1
  ldsfld object P::lock
  call void [mscorlib]System.Threading.Monitor::Enter(object)
  ret
 }
}
.class public auto ansi P extends [mscorlib]System.Object {
 .field public static object lock
 .method public static void Main() cil managed {
  .entrypoint
  .maxstack 1
  newobj instance void [mscorlib]System.Object::.ctor()
  stsfld object P::lock
  newobj instance void T::.ctor()
  callvirt instance void [cilvm]Cilvm.Thread::Start()
  ldsfld object P::lock
  call void [mscorlib]System.Threading.Monitor::Enter(object)
  ldnull
  ldlen
  pop
  ret
 }
}
