.assembly extern mscorlib {}
.class public auto ansi Q extends [mscorlib]System.Object {
 .method public specialname rtspecialname instance void .ctor() cil managed {
  .maxstack 1
  ldarg.0
  call instance void [mscorlib]System.Object::.ctor()
  ret
 }
}
.class public auto ansi P extends [mscorlib]System.Object {
 .method public static void Main() cil managed {
  .entrypoint
  .maxstack 1
  newobj instance void Q::.ctor()
  pop
  ret
 }
}
