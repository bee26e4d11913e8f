.assembly extern mscorlib {}
.assembly extern cilvm {}
.class interface public abstract auto ansi IRun {
}
.class public auto ansi Animal extends [mscorlib]System.Object {
 .method public specialname rtspecialname instance void .ctor() cil managed {
  .maxstack 1
  ldarg.0  call instance void [mscorlib]System.Object::.ctor()  ret
 }
}
.class public auto ansi Dog extends Animal implements IRun {
 .method public specialname rtspecialname instance void .ctor() cil managed {
  .maxstack 1
  ldarg.0  call instance void Animal::.ctor()  ret
 }
}
// Its objects are threads, one for each kind of fault.
.class public auto ansi Faulty extends [cilvm]Cilvm.Thread {
 .field public int32 kind
 .method public specialname rtspecialname instance void .ctor(int32 kind) cil managed {
  .maxstack 2
  ldarg.0  call instance void [cilvm]Cilvm.Thread::.ctor()
  ldarg.0  ldarg.1  stfld int32 Faulty::kind  ret
 }
 .method public virtual instance void Run() cil managed {
  .maxstack 4
  ldarg.0  ldfld int32 Faulty::kind
  switch (KIND0, KIND1, KIND2, KIND3, KIND4, KIND5, KIND6, KIND7, KIND8, KIND9, KIND10, KIND11)  ret
  KIND0: newobj instance void Animal::.ctor()  castclass class Dog  pop  ret
  KIND1: newobj instance void Animal::.ctor()  castclass class IRun  pop  ret
  KIND2: newobj instance void Animal::.ctor()  castclass string  pop  ret
  KIND3: newobj instance void Animal::.ctor()  castclass class Animal[]  pop  ret
  KIND4: newobj instance void Dog::.ctor()  castclass class Faulty  pop  ret
  KIND5: ldstr "a"  castclass class Animal  pop  ret
  KIND6: ldc.i4.1  newarr class Animal  castclass class Dog[]  pop  ret
  KIND7: ldc.i4.1  newarr class Dog  castclass string[]  pop  ret
  KIND8: ldc.i4.1  newarr class Dog  castclass class Dog  pop  ret
  KIND9: ldc.i4.1  newarr int32  castclass int64[]  pop  ret
  KIND10: ldc.i4.1  newarr int32  castclass object[]  pop  ret
  KIND11: ldc.i4.1  newarr string  castclass string  pop  ret
 }
}
.class public auto ansi P extends [mscorlib]System.Object {
 .method public static void Main() cil managed {
  .entrypoint
  .maxstack 1
  ldc.i4 0  newobj instance void Faulty::.ctor(int32)  callvirt instance void [cilvm]Cilvm.Thread::Start()
  ldc.i4 1  newobj instance void Faulty::.ctor(int32)  callvirt instance void [cilvm]Cilvm.Thread::Start()
  ldc.i4 2  newobj instance void Faulty::.ctor(int32)  callvirt instance void [cilvm]Cilvm.Thread::Start()
  ldc.i4 3  newobj instance void Faulty::.ctor(int32)  callvirt instance void [cilvm]Cilvm.Thread::Start()
  ldc.i4 4  newobj instance void Faulty::.ctor(int32)  callvirt instance void [cilvm]Cilvm.Thread::Start()
  ldc.i4 5  newobj instance void Faulty::.ctor(int32)  callvirt instance void [cilvm]Cilvm.Thread::Start()
  ldc.i4 6  newobj instance void Faulty::.ctor(int32)  callvirt instance void [cilvm]Cilvm.Thread::Start()
  ldc.i4 7  newobj instance void Faulty::.ctor(int32)  callvirt instance void [cilvm]Cilvm.Thread::Start()
  ldc.i4 8  newobj instance void Faulty::.ctor(int32)  callvirt instance void [cilvm]Cilvm.Thread::Start()
  ldc.i4 9  newobj instance void Faulty::.ctor(int32)  callvirt instance void [cilvm]Cilvm.Thread::Start()
  ldc.i4 10  newobj instance void Faulty::.ctor(int32)  callvirt instance void [cilvm]Cilvm.Thread::Start()
  ldc.i4 11  newobj instance void Faulty::.ctor(int32)  callvirt instance void [cilvm]Cilvm.Thread::Start()
  ret
 }
}
