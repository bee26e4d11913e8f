.assembly extern mscorlib {}
.assembly extern cilvm {}
.class public auto ansi P extends [mscorlib]System.Object {
 .method public static void Main() cil managed {
  .entrypoint
  .maxstack 2
  newobj instance void [cilvm]Cilvm.Thread::.ctor()
  dup
  callvirt instance void [cilvm]Cilvm.Thread::Start()
  callvirt instance void [cilvm]Cilvm.Thread::Join()
  ret
 }
}
