.assembly extern mscorlib {}
.class public auto ansi P extends [mscorlib]System.Object {
 .method public static void Main() cil managed {
  .entrypoint
  .maxstack 2
  newobj instance void [mscorlib]System.Object::.ctor()
  pop
  ret
 }
}
