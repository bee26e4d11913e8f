.assembly extern mscorlib {}
.class public auto ansi A extends [mscorlib]System.Object {
 .field public int32 x
 .field public int64 y
 .method public specialname rtspecialname instance void .ctor() cil managed {
  .maxstack 1
  ldarg.0
  call instance void [mscorlib]System.Object::.ctor()
  ret
 }
}
.class public auto ansi B extends A {
 .field public int32 x
 .method public specialname rtspecialname instance void .ctor() cil managed {
  .maxstack 1
  ldarg.0
  call instance void A::.ctor()
  ret
 }
}
.class public auto ansi P extends [mscorlib]System.Object {
 .method public static void Main() cil managed {
  .entrypoint
  .maxstack 2
  .locals init (class B)
  newobj instance void B::.ctor()
  stloc.0
  ldloc.0
  ldc.i4.1
  stfld int32 A::x
  ldloc.0
  ldc.i8 2
  stfld int64 B::y
  ldloc.0
  ldc.i4.3
  stfld int32 B::x
  ldloc.0
  ldfld int32 A::x
  call void [mscorlib]System.Console::WriteLine(int32)
  ldloc.0
  ldfld int64 A::y
  call void [mscorlib]System.Console::WriteLine(int64)
  ldloc.0
  ldfld int32 B::x
  call void [mscorlib]System.Console::WriteLine(int32)
  ret
 }
}
