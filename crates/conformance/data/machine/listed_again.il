.assembly extern mscorlib {}
.class interface public abstract auto ansi I {
 .method public newslot abstract virtual instance void f() cil managed {}
}
.class public auto ansi A extends [mscorlib]System.Object implements I {
 .method public specialname rtspecialname instance void .ctor() cil managed {
  .maxstack 1
  ldarg.0
  call instance void [mscorlib]System.Object::.ctor()
  ret
 }
 .method public newslot virtual instance void f() cil managed {
  .maxstack 1
  ldc.i4.1
  call void [mscorlib]System.Console::WriteLine(int32)
  ret
 }
}
.class public auto ansi B extends A implements I {
 .method public specialname rtspecialname instance void .ctor() cil managed {
  .maxstack 1
  ldarg.0
  call instance void A::.ctor()
  ret
 }
 .method public newslot virtual instance void f() cil managed {
  .maxstack 1
  ldc.i4.2
  call void [mscorlib]System.Console::WriteLine(int32)
  ret
 }
}
.class public auto ansi P extends [mscorlib]System.Object {
 .method public static void Main() cil managed {
  .entrypoint
  .maxstack 2
  newobj instance void B::.ctor()
  callvirt instance void I::f()
  ret
 }
}
