.assembly extern mscorlib {}
.assembly extern cilvm {}
.class public auto ansi T extends [cilvm]Cilvm.Thread {
 .method public specialname rtspecialname instance void .ctor() cil managed {
  .maxstack 1
  ldarg.0
  call instance void [cilvm]Cilvm.Thread::.ctor()
  ret
 }
 .method public virtual instance void Run() cil managed {
  .maxstack 1
  ldarg.0
  callvirt instance void [cilvm]Cilvm.Thread::Join()
  ret
 }
}
.class public auto ansi P extends [mscorlib]System.Object {
 .method public static void Main() cil managed {
  .entrypoint
  .maxstack 1
  newobj instance void T::.ctor()
  callvirt instance void [cilvm]Cilvm.Thread::Start()
  ret
 }
}
