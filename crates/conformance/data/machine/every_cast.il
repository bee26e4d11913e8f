.assembly extern mscorlib {}
.class interface public abstract auto ansi IRun {
}
.class public auto ansi Animal extends [mscorlib]System.Object {
 .method public specialname rtspecialname instance void .ctor() cil managed {
  .maxstack 1
  ldarg.0  call instance void [mscorlib]System.Object::.ctor()  ret
 }
}
.class public auto ansi Dog extends Animal implements IRun {
 .method public specialname rtspecialname instance void .ctor() cil managed {
  .maxstack 1
  ldarg.0  call instance void Animal::.ctor()  ret
 }
}
.class public auto ansi Faulty extends [mscorlib]System.Object {
}
.class public auto ansi P extends [mscorlib]System.Object {
 .method public static void Main() cil managed {
  .entrypoint
  .maxstack 2
  .locals init (object made)
  newobj instance void Animal::.ctor()  isinst class Animal  brtrue YES0  ldc.i4.0  br TELL0  YES0: ldc.i4.1  TELL0: call void [mscorlib]System.Console::WriteLine(int32)
  newobj instance void Animal::.ctor()  isinst object  brtrue YES1  ldc.i4.0  br TELL1  YES1: ldc.i4.1  TELL1: call void [mscorlib]System.Console::WriteLine(int32)
  newobj instance void Animal::.ctor()  isinst class Dog  brtrue YES2  ldc.i4.0  br TELL2  YES2: ldc.i4.1  TELL2: call void [mscorlib]System.Console::WriteLine(int32)
  newobj instance void Animal::.ctor()  isinst class IRun  brtrue YES3  ldc.i4.0  br TELL3  YES3: ldc.i4.1  TELL3: call void [mscorlib]System.Console::WriteLine(int32)
  newobj instance void Animal::.ctor()  isinst string  brtrue YES4  ldc.i4.0  br TELL4  YES4: ldc.i4.1  TELL4: call void [mscorlib]System.Console::WriteLine(int32)
  newobj instance void Animal::.ctor()  isinst class Animal[]  brtrue YES5  ldc.i4.0  br TELL5  YES5: ldc.i4.1  TELL5: call void [mscorlib]System.Console::WriteLine(int32)
  newobj instance void Dog::.ctor()  isinst class Dog  brtrue YES6  ldc.i4.0  br TELL6  YES6: ldc.i4.1  TELL6: call void [mscorlib]System.Console::WriteLine(int32)
  newobj instance void Dog::.ctor()  isinst class Animal  brtrue YES7  ldc.i4.0  br TELL7  YES7: ldc.i4.1  TELL7: call void [mscorlib]System.Console::WriteLine(int32)
  newobj instance void Dog::.ctor()  isinst class IRun  brtrue YES8  ldc.i4.0  br TELL8  YES8: ldc.i4.1  TELL8: call void [mscorlib]System.Console::WriteLine(int32)
  newobj instance void Dog::.ctor()  isinst object  brtrue YES9  ldc.i4.0  br TELL9  YES9: ldc.i4.1  TELL9: call void [mscorlib]System.Console::WriteLine(int32)
  newobj instance void Dog::.ctor()  isinst class Faulty  brtrue YES10  ldc.i4.0  br TELL10  YES10: ldc.i4.1  TELL10: call void [mscorlib]System.Console::WriteLine(int32)
  ldstr "a"  isinst string  brtrue YES11  ldc.i4.0  br TELL11  YES11: ldc.i4.1  TELL11: call void [mscorlib]System.Console::WriteLine(int32)
  ldstr "a"  isinst object  brtrue YES12  ldc.i4.0  br TELL12  YES12: ldc.i4.1  TELL12: call void [mscorlib]System.Console::WriteLine(int32)
  ldstr "a"  isinst class Animal  brtrue YES13  ldc.i4.0  br TELL13  YES13: ldc.i4.1  TELL13: call void [mscorlib]System.Console::WriteLine(int32)
  ldc.i4.1  newarr class Dog  isinst class Dog[]  brtrue YES14  ldc.i4.0  br TELL14  YES14: ldc.i4.1  TELL14: call void [mscorlib]System.Console::WriteLine(int32)
  ldc.i4.1  newarr class Dog  isinst class Animal[]  brtrue YES15  ldc.i4.0  br TELL15  YES15: ldc.i4.1  TELL15: call void [mscorlib]System.Console::WriteLine(int32)
  ldc.i4.1  newarr class Dog  isinst class IRun[]  brtrue YES16  ldc.i4.0  br TELL16  YES16: ldc.i4.1  TELL16: call void [mscorlib]System.Console::WriteLine(int32)
  ldc.i4.1  newarr class Dog  isinst object[]  brtrue YES17  ldc.i4.0  br TELL17  YES17: ldc.i4.1  TELL17: call void [mscorlib]System.Console::WriteLine(int32)
  ldc.i4.1  newarr class Dog  isinst object  brtrue YES18  ldc.i4.0  br TELL18  YES18: ldc.i4.1  TELL18: call void [mscorlib]System.Console::WriteLine(int32)
  ldc.i4.1  newarr class Animal  isinst class Dog[]  brtrue YES19  ldc.i4.0  br TELL19  YES19: ldc.i4.1  TELL19: call void [mscorlib]System.Console::WriteLine(int32)
  ldc.i4.1  newarr class Dog  isinst string[]  brtrue YES20  ldc.i4.0  br TELL20  YES20: ldc.i4.1  TELL20: call void [mscorlib]System.Console::WriteLine(int32)
  ldc.i4.1  newarr class Dog  isinst class Dog  brtrue YES21  ldc.i4.0  br TELL21  YES21: ldc.i4.1  TELL21: call void [mscorlib]System.Console::WriteLine(int32)
  ldc.i4.1  newarr int32  isinst int32[]  brtrue YES22  ldc.i4.0  br TELL22  YES22: ldc.i4.1  TELL22: call void [mscorlib]System.Console::WriteLine(int32)
  ldc.i4.1  newarr int32  isinst int64[]  brtrue YES23  ldc.i4.0  br TELL23  YES23: ldc.i4.1  TELL23: call void [mscorlib]System.Console::WriteLine(int32)
  ldc.i4.1  newarr int32  isinst object[]  brtrue YES24  ldc.i4.0  br TELL24  YES24: ldc.i4.1  TELL24: call void [mscorlib]System.Console::WriteLine(int32)
  ldc.i4.1  newarr int32  isinst object  brtrue YES25  ldc.i4.0  br TELL25  YES25: ldc.i4.1  TELL25: call void [mscorlib]System.Console::WriteLine(int32)
  ldc.i4.1  newarr string  isinst string[]  brtrue YES26  ldc.i4.0  br TELL26  YES26: ldc.i4.1  TELL26: call void [mscorlib]System.Console::WriteLine(int32)
  ldc.i4.1  newarr string  isinst object[]  brtrue YES27  ldc.i4.0  br TELL27  YES27: ldc.i4.1  TELL27: call void [mscorlib]System.Console::WriteLine(int32)
  ldc.i4.1  newarr string  isinst string  brtrue YES28  ldc.i4.0  br TELL28  YES28: ldc.i4.1  TELL28: call void [mscorlib]System.Console::WriteLine(int32)
  ldnull  isinst class Dog  ldnull  ceq  call void [mscorlib]System.Console::WriteLine(int32)
  ldnull  castclass class Dog  ldnull  ceq  call void [mscorlib]System.Console::WriteLine(int32)
  ldnull  isinst string  ldnull  ceq  call void [mscorlib]System.Console::WriteLine(int32)
  ldnull  castclass string  ldnull  ceq  call void [mscorlib]System.Console::WriteLine(int32)
  ldnull  isinst int32[]  ldnull  ceq  call void [mscorlib]System.Console::WriteLine(int32)
  ldnull  castclass int32[]  ldnull  ceq  call void [mscorlib]System.Console::WriteLine(int32)
  ldnull  isinst object  ldnull  ceq  call void [mscorlib]System.Console::WriteLine(int32)
  ldnull  castclass object  ldnull  ceq  call void [mscorlib]System.Console::WriteLine(int32)
  newobj instance void Animal::.ctor()  dup  stloc.0  castclass class Animal  ldloc.0  ceq  call void [mscorlib]System.Console::WriteLine(int32)
  newobj instance void Animal::.ctor()  dup  stloc.0  castclass object  ldloc.0  ceq  call void [mscorlib]System.Console::WriteLine(int32)
  newobj instance void Dog::.ctor()  dup  stloc.0  castclass class Dog  ldloc.0  ceq  call void [mscorlib]System.Console::WriteLine(int32)
  newobj instance void Dog::.ctor()  dup  stloc.0  castclass class Animal  ldloc.0  ceq  call void [mscorlib]System.Console::WriteLine(int32)
  newobj instance void Dog::.ctor()  dup  stloc.0  castclass class IRun  ldloc.0  ceq  call void [mscorlib]System.Console::WriteLine(int32)
  newobj instance void Dog::.ctor()  dup  stloc.0  castclass object  ldloc.0  ceq  call void [mscorlib]System.Console::WriteLine(int32)
  ldstr "a"  dup  stloc.0  castclass string  ldloc.0  ceq  call void [mscorlib]System.Console::WriteLine(int32)
  ldstr "a"  dup  stloc.0  castclass object  ldloc.0  ceq  call void [mscorlib]System.Console::WriteLine(int32)
  ldc.i4.1  newarr class Dog  dup  stloc.0  castclass class Dog[]  ldloc.0  ceq  call void [mscorlib]System.Console::WriteLine(int32)
  ldc.i4.1  newarr class Dog  dup  stloc.0  castclass class Animal[]  ldloc.0  ceq  call void [mscorlib]System.Console::WriteLine(int32)
  ldc.i4.1  newarr class Dog  dup  stloc.0  castclass class IRun[]  ldloc.0  ceq  call void [mscorlib]System.Console::WriteLine(int32)
  ldc.i4.1  newarr class Dog  dup  stloc.0  castclass object[]  ldloc.0  ceq  call void [mscorlib]System.Console::WriteLine(int32)
  ldc.i4.1  newarr class Dog  dup  stloc.0  castclass object  ldloc.0  ceq  call void [mscorlib]System.Console::WriteLine(int32)
  ldc.i4.1  newarr int32  dup  stloc.0  castclass int32[]  ldloc.0  ceq  call void [mscorlib]System.Console::WriteLine(int32)
  ldc.i4.1  newarr int32  dup  stloc.0  castclass object  ldloc.0  ceq  call void [mscorlib]System.Console::WriteLine(int32)
  ldc.i4.1  newarr string  dup  stloc.0  castclass string[]  ldloc.0  ceq  call void [mscorlib]System.Console::WriteLine(int32)
  ldc.i4.1  newarr string  dup  stloc.0  castclass object[]  ldloc.0  ceq  call void [mscorlib]System.Console::WriteLine(int32)
  ret
 }
}
