.assembly extern mscorlib {}
.class public auto ansi Pair extends [mscorlib]System.Object {
 .field public int32 left
 .field public int32 right
 .method public specialname rtspecialname instance void .ctor() cil managed {
  .maxstack 1
  ldarg.0
  call instance void [mscorlib]System.Object::.ctor()
  ret
 }
}
.class public auto ansi P extends [mscorlib]System.Object {
 .method public static void Main() cil managed {
  .entrypoint
  .maxstack 1
  newobj instance void Pair::.ctor()
  pop
  newobj instance void Pair::.ctor()
  pop
  newobj instance void Pair::.ctor()
  pop
  newobj instance void Pair::.ctor()
  pop
  newobj instance void Pair::.ctor()
  pop
  newobj instance void Pair::.ctor()
  pop
  newobj instance void Pair::.ctor()
  pop
  newobj instance void Pair::.ctor()
  pop
  newobj instance void Pair::.ctor()
  pop
  newobj instance void Pair::.ctor()
  pop
  newobj instance void Pair::.ctor()
  pop
  newobj instance void Pair::.ctor()
  pop
  newobj instance void Pair::.ctor()
  pop
  ret
 }
}
