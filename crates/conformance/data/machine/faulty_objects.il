.assembly extern mscorlib {}
.assembly extern cilvm {}
.class public auto ansi Box extends [mscorlib]System.Object {
 .field public int32 number
 .field public int64 wide
 .field public string text
 .field public class Box next
 .field public int32[] numbers
 .field public object any
 .method public specialname rtspecialname instance void .ctor() cil managed {
  .maxstack 1
  ldarg.0  call instance void [mscorlib]System.Object::.ctor()  ret
 }
 .method public instance int32 Number() cil managed {
  .maxstack 1
  ldarg.0  ldfld int32 Box::number  ret
 }
 .method public newslot virtual instance int64 Wide() cil managed {
  .maxstack 1
  ldarg.0  ldfld int64 Box::wide  ret
 }
}
// Its objects are threads, one for each kind of fault.
.class public auto ansi Faulty extends [cilvm]Cilvm.Thread {
 .field public int32 kind
 .method public specialname rtspecialname instance void .ctor(int32 kind) cil managed {
  .maxstack 2
  ldarg.0  call instance void [cilvm]Cilvm.Thread::.ctor()
  ldarg.0  ldarg.1  stfld int32 Faulty::kind  ret
 }
 .method public virtual instance void Run() cil managed {
  .maxstack 4
  ldarg.0  ldfld int32 Faulty::kind
  switch (KIND0, KIND1, KIND2, KIND3, KIND4, KIND5, KIND6, KIND7, KIND8, KIND9, KIND10, KIND11, KIND12, KIND13, KIND14)  ret
  KIND0: ldnull  ldfld int32 Box::number  pop  ret
  KIND1: ldnull  ldc.i4 7  stfld int32 Box::number  ret
  KIND2: ldnull  ldfld int64 Box::wide  pop  ret
  KIND3: ldnull  ldc.i8 7  stfld int64 Box::wide  ret
  KIND4: ldnull  ldfld string Box::text  pop  ret
  KIND5: ldnull  ldstr "a"  stfld string Box::text  ret
  KIND6: ldnull  ldfld class Box Box::next  pop  ret
  KIND7: ldnull  ldnull  stfld class Box Box::next  ret
  KIND8: ldnull  ldfld int32[] Box::numbers  pop  ret
  KIND9: ldnull  ldnull  stfld int32[] Box::numbers  ret
  KIND10: ldnull  ldfld object Box::any  pop  ret
  KIND11: ldnull  ldarg.0  stfld object Box::any  ret
  KIND12: ldnull  call instance int32 Box::Number()  pop  ret
  KIND13: ldnull  callvirt instance int32 Box::Number()  pop  ret
  KIND14: ldnull  callvirt instance int64 Box::Wide()  pop  ret
 }
}
.class public auto ansi P extends [mscorlib]System.Object {
 .method public static void Main() cil managed {
  .entrypoint
  .maxstack 1
  ldc.i4 0  newobj instance void Faulty::.ctor(int32)  callvirt instance void [cilvm]Cilvm.Thread::Start()
  ldc.i4 1  newobj instance void Faulty::.ctor(int32)  callvirt instance void [cilvm]Cilvm.Thread::Start()
  ldc.i4 2  newobj instance void Faulty::.ctor(int32)  callvirt instance void [cilvm]Cilvm.Thread::Start()
  ldc.i4 3  newobj instance void Faulty::.ctor(int32)  callvirt instance void [cilvm]Cilvm.Thread::Start()
  ldc.i4 4  newobj instance void Faulty::.ctor(int32)  callvirt instance void [cilvm]Cilvm.Thread::Start()
  ldc.i4 5  newobj instance void Faulty::.ctor(int32)  callvirt instance void [cilvm]Cilvm.Thread::Start()
  ldc.i4 6  newobj instance void Faulty::.ctor(int32)  callvirt instance void [cilvm]Cilvm.Thread::Start()
  ldc.i4 7  newobj instance void Faulty::.ctor(int32)  callvirt instance void [cilvm]Cilvm.Thread::Start()
  ldc.i4 8  newobj instance void Faulty::.ctor(int32)  callvirt instance void [cilvm]Cilvm.Thread::Start()
  ldc.i4 9  newobj instance void Faulty::.ctor(int32)  callvirt instance void [cilvm]Cilvm.Thread::Start()
  ldc.i4 10  newobj instance void Faulty::.ctor(int32)  callvirt instance void [cilvm]Cilvm.Thread::Start()
  ldc.i4 11  newobj instance void Faulty::.ctor(int32)  callvirt instance void [cilvm]Cilvm.Thread::Start()
  ldc.i4 12  newobj instance void Faulty::.ctor(int32)  callvirt instance void [cilvm]Cilvm.Thread::Start()
  ldc.i4 13  newobj instance void Faulty::.ctor(int32)  callvirt instance void [cilvm]Cilvm.Thread::Start()
  ldc.i4 14  newobj instance void Faulty::.ctor(int32)  callvirt instance void [cilvm]Cilvm.Thread::Start()
  ret
 }
}
