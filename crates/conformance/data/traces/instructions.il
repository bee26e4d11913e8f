.assembly extern mscorlib {}
.class public auto ansi Dog extends [mscorlib]System.Object {
 .field public int32 age
 .method public specialname rtspecialname instance void .ctor() cil managed {
  .maxstack 1
  ldarg.0
  call instance void [mscorlib]System.Object::.ctor()
  ret
 }
 .method public instance void grow() cil managed {
  .maxstack 3
  ldarg.0
  dup
  ldfld int32 Dog::age
  ldc.i4.1
  add
  stfld int32 Dog::age
  ret
 }
 .method public newslot virtual instance int64 bark(int32, class Dog[]) cil managed {
  .maxstack 1
  ldarg.1
  conv.i8
  ret
 }
}
.class public auto ansi P extends [mscorlib]System.Object {
 .field public static int64 wide
 .field public static class Dog[] dogs
 .method public static int32 less(int32) cil managed {
  .maxstack 2
  ldarg.0
  ldc.i4.1
  sub.ovf
  starg 0
  ldarg 0
  ret
 }
 .method public static void Main() cil managed {
  .entrypoint
  .maxstack 4
  .locals init (int32, int64, class Dog, int32[], int64[], string)
  nop
  ldc.i4 -7
  stloc 0
  ldc.i8 -9223372036854775808
  stloc 1
  ldnull
  pop
  ldstr "a \"quoted\" line\n\tand \\ more"
  stloc 5
  ldloc 5
  call void [mscorlib]System.Console::WriteLine(string)
  ldloc 0
  ldc.i4.3
  add
  ldc.i4.m1
  sub
  ldc.i4 1000000
  mul
  ldc.i4 7
  add.ovf
  ldc.i4 2
  mul.ovf
  ldc.i4 5
  div
  ldc.i4 100
  rem
  ldc.i4 255
  and
  ldc.i4 64
  or
  ldc.i4 21
  xor
  neg
  not
  ldc.i4 2
  shl
  ldc.i4 1
  shr
  ldc.i4 1
  shr.un
  dup
  dup
  ceq
  cgt
  ldc.i4 1
  clt
  conv.i8
  conv.i4
  call int32 P::less(int32)
  pop
  br A
  A: ldc.i4.1
  brtrue B
  B: ldc.i4.0
  brfalse C
  C: ldc.i4.1
  ldc.i4.1
  beq D
  D: ldc.i4.1
  ldc.i4.2
  bne.un E
  E: ldc.i4.1
  ldc.i4.2
  bge F
  F: ldc.i4.1
  ldc.i4.2
  bgt G
  G: ldc.i4.1
  ldc.i4.2
  ble H
  H: ldc.i4.1
  ldc.i4.2
  blt I
  I: ldc.i4.1
  switch (A, J, A)
  J: ldc.i4.5
  switch ()
  newobj instance void Dog::.ctor()
  stloc 2
  ldloc 2
  call instance void Dog::grow()
  ldloc 2
  ldc.i4.6
  ldnull
  callvirt instance int64 Dog::bark(int32, class Dog[])
  stsfld int64 P::wide
  ldsfld int64 P::wide
  call void [mscorlib]System.Console::WriteLine(int64)
  ldc.i4.1
  newarr class Dog
  stsfld class Dog[] P::dogs
  ldsfld class Dog[] P::dogs
  ldc.i4.0
  ldloc 2
  stelem.ref
  ldsfld class Dog[] P::dogs
  ldc.i4.0
  ldelem.ref
  castclass object
  isinst class Dog
  pop
  ldc.i4.2
  newarr int32
  stloc 3
  ldloc 3
  ldc.i4.1
  ldc.i4.8
  stelem.i4
  ldloc 3
  ldc.i4.1
  ldelem.i4
  pop
  ldc.i4.2
  newarr int64
  stloc 4
  ldloc 4
  ldc.i4.0
  ldloc 1
  stelem.i8
  ldloc 4
  ldc.i4.0
  ldelem.i8
  pop
  ldloc 4
  ldlen
  pop
  ret
 }
}
