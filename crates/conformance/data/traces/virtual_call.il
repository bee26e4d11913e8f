.assembly extern mscorlib {}
.class interface public abstract auto ansi IRun {
 .method public newslot abstract virtual instance int32 legs(int32) cil managed {}
}
.class public auto ansi Dog extends [mscorlib]System.Object implements IRun {
 .field public int32 missing
 .method public specialname rtspecialname instance void .ctor(int32) cil managed {
  .maxstack 2
  ldarg.0
  call instance void [mscorlib]System.Object::.ctor()
  ldarg.0
  ldarg.1
  stfld int32 Dog::missing
  ret
 }
 .method public newslot virtual instance int32 legs(int32) cil managed {
  .maxstack 2
  ldarg.1
  ldarg.0
  ldfld int32 Dog::missing
  sub
  ret
 }
}
.class public auto ansi P extends [mscorlib]System.Object {
 .method public static void Main() cil managed {
  .entrypoint
  .maxstack 2
  ldc.i4.1
  newobj instance void Dog::.ctor(int32)
  ldc.i4.4
  callvirt instance int32 IRun::legs(int32)
  call void [mscorlib]System.Console::WriteLine(int32)
  ret
 }
}
