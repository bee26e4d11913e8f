.assembly extern mscorlib {}
.class interface public abstract auto ansi IRun {
 .method public newslot abstract virtual instance int32 legs() cil managed {}
}
.class public auto ansi Animal extends [mscorlib]System.Object {
 .field public int32 age
 .method public specialname rtspecialname instance void .ctor() cil managed {
  .maxstack 1
  ldarg.0
  call instance void [mscorlib]System.Object::.ctor()
  ret
 }
 .method public newslot virtual instance int32 speak() cil managed {
  .maxstack 1
  ldc.i4.1
  ret
 }
 .method public instance int32 name() cil managed {
  .maxstack 1
  ldc.i4.7
  ret
 }
 .method public static void put(class Animal[], class Animal) cil managed {
  .maxstack 3
  ldarg.0
  ldc.i4.0
  ldarg.1
  stelem.ref
  ret
 }
}
.class public auto ansi Dog extends Animal implements IRun {
 .method public specialname rtspecialname instance void .ctor() cil managed {
  .maxstack 1
  ldarg.0
  call instance void Animal::.ctor()
  ret
 }
 .method public virtual instance int32 speak() cil managed {
  .maxstack 1
  ldc.i4.2
  ret
 }
 .method public newslot virtual instance int32 legs() cil managed {
  .maxstack 1
  ldc.i4.4
  ret
 }
}
.class public auto ansi Cat extends Animal {
 .method public specialname rtspecialname instance void .ctor() cil managed {
  .maxstack 1
  ldarg.0
  call instance void Animal::.ctor()
  ret
 }
 .method public newslot virtual instance int32 speak() cil managed {
  .maxstack 1
  ldc.i4.3
  ret
 }
}
.class public auto ansi P extends [mscorlib]System.Object {
 .method public static void Main() cil managed {
  .entrypoint
  .maxstack 1
  newobj instance void Dog::.ctor()
  castclass class IRun
  castclass class Animal
  callvirt instance int32 Animal::speak()
  call void [mscorlib]System.Console::WriteLine(int32)
  ret
 }
}
