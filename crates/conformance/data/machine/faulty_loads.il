.assembly extern mscorlib {}
.assembly extern cilvm {}
// Its objects are threads, one for each kind of fault.
.class public auto ansi Faulty extends [cilvm]Cilvm.Thread {
 .field public int32 kind
 .method public specialname rtspecialname instance void .ctor(int32 kind) cil managed {
  .maxstack 2
  ldarg.0  call instance void [cilvm]Cilvm.Thread::.ctor()
  ldarg.0  ldarg.1  stfld int32 Faulty::kind  ret
 }
 .method public virtual instance void Run() cil managed {
  .maxstack 4
  ldarg.0  ldfld int32 Faulty::kind
  switch (KIND0, KIND1, KIND2, KIND3, KIND4, KIND5, KIND6, KIND7, KIND8, KIND9, KIND10, KIND11, KIND12, KIND13, KIND14)  ret
  KIND0: ldnull  castclass int32[]  ldc.i4 5  ldelem.i4  pop  ret
  KIND1: ldc.i4.2  newarr int32  ldc.i4.2  ldelem.i4  pop  ret
  KIND2: ldc.i4.2  newarr int32  ldc.i4.m1  ldelem.i4  pop  ret
  KIND3: ldc.i4.2  newarr int32  dup  ldlen  ldelem.i4  pop  ret
  KIND4: ldnull  castclass int64[]  ldc.i4 5  ldelem.i8  pop  ret
  KIND5: ldc.i4.2  newarr int64  ldc.i4.2  ldelem.i8  pop  ret
  KIND6: ldc.i4.2  newarr int64  ldc.i4.m1  ldelem.i8  pop  ret
  KIND7: ldc.i4.2  newarr int64  dup  ldlen  ldelem.i8  pop  ret
  KIND8: ldnull  castclass string[]  ldc.i4 5  ldelem.ref  pop  ret
  KIND9: ldc.i4.2  newarr string  ldc.i4.2  ldelem.ref  pop  ret
  KIND10: ldc.i4.2  newarr string  ldc.i4.m1  ldelem.ref  pop  ret
  KIND11: ldc.i4.2  newarr string  dup  ldlen  ldelem.ref  pop  ret
  KIND12: ldnull  castclass object[]  ldlen  pop  ret
  KIND13: ldc.i4.m1  newarr int64  pop  ret
  KIND14: ldc.i4 2147483647  newarr class Faulty  pop  ret
 }
}
.class public auto ansi P extends [mscorlib]System.Object {
 .method public static void Main() cil managed {
  .entrypoint
  .maxstack 1
  ldc.i4 0  newobj instance void Faulty::.ctor(int32)  callvirt instance void [cilvm]Cilvm.Thread::Start()
  ldc.i4 1  newobj instance void Faulty::.ctor(int32)  callvirt instance void [cilvm]Cilvm.Thread::Start()
  ldc.i4 2  newobj instance void Faulty::.ctor(int32)  callvirt instance void [cilvm]Cilvm.Thread::Start()
  ldc.i4 3  newobj instance void Faulty::.ctor(int32)  callvirt instance void [cilvm]Cilvm.Thread::Start()
  ldc.i4 4  newobj instance void Faulty::.ctor(int32)  callvirt instance void [cilvm]Cilvm.Thread::Start()
  ldc.i4 5  newobj instance void Faulty::.ctor(int32)  callvirt instance void [cilvm]Cilvm.Thread::Start()
  ldc.i4 6  newobj instance void Faulty::.ctor(int32)  callvirt instance void [cilvm]Cilvm.Thread::Start()
  ldc.i4 7  newobj instance void Faulty::.ctor(int32)  callvirt instance void [cilvm]Cilvm.Thread::Start()
  ldc.i4 8  newobj instance void Faulty::.ctor(int32)  callvirt instance void [cilvm]Cilvm.Thread::Start()
  ldc.i4 9  newobj instance void Faulty::.ctor(int32)  callvirt instance void [cilvm]Cilvm.Thread::Start()
  ldc.i4 10  newobj instance void Faulty::.ctor(int32)  callvirt instance void [cilvm]Cilvm.Thread::Start()
  ldc.i4 11  newobj instance void Faulty::.ctor(int32)  callvirt instance void [cilvm]Cilvm.Thread::Start()
  ldc.i4 12  newobj instance void Faulty::.ctor(int32)  callvirt instance void [cilvm]Cilvm.Thread::Start()
  ldc.i4 13  newobj instance void Faulty::.ctor(int32)  callvirt instance void [cilvm]Cilvm.Thread::Start()
  ldc.i4 14  newobj instance void Faulty::.ctor(int32)  callvirt instance void [cilvm]Cilvm.Thread::Start()
  ret
 }
}
