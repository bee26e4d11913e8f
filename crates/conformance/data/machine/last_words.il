.assembly extern mscorlib {}
.class public auto ansi One extends [mscorlib]System.Object {
 .field public int32 only
 .method public specialname rtspecialname instance void .ctor() cil managed {
  .maxstack 1
  ldarg.0  call instance void [mscorlib]System.Object::.ctor()  ret
 }
}
.class public auto ansi P extends [mscorlib]System.Object {
 .method public static void Main() cil managed {
  .entrypoint
  .maxstack 1
  ldc.i4 57  newarr int32  pop
  newobj instance void One::.ctor()  pop
  ldc.i4.0  newarr object  pop
  ret
 }
}
