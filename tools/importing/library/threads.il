// Threads of delegates, Monitor's waiting by spinning, and Interlocked by one monitor.
.class public auto ansi System.Threading.Thread extends [cilvm]Cilvm.Thread {
  .field public class System.Threading.ThreadStart start
  .field public class System.Threading.ParameterizedThreadStart startWith
  .field public object argument
  .method public specialname rtspecialname instance void .ctor(class System.Threading.ThreadStart) cil managed {
    .maxstack 2
    ldarg.0  call instance void [cilvm]Cilvm.Thread::.ctor()
    ldarg.0  ldarg.1  stfld class System.Threading.ThreadStart System.Threading.Thread::start  ret
  }
  .method public specialname rtspecialname instance void .ctor(class System.Threading.ParameterizedThreadStart) cil managed {
    .maxstack 2
    ldarg.0  call instance void [cilvm]Cilvm.Thread::.ctor()
    ldarg.0  ldarg.1  stfld class System.Threading.ParameterizedThreadStart System.Threading.Thread::startWith  ret
  }
  .method public virtual instance void Run() cil managed {
    .maxstack 2
    ldarg.0  ldfld class System.Threading.ThreadStart System.Threading.Thread::start  brfalse WITH
    ldarg.0  ldfld class System.Threading.ThreadStart System.Threading.Thread::start
    callvirt instance void System.Threading.ThreadStart::Invoke()  ret
    WITH: ldarg.0  ldfld class System.Threading.ParameterizedThreadStart System.Threading.Thread::startWith
    ldarg.0  ldfld object System.Threading.Thread::argument
    callvirt instance void System.Threading.ParameterizedThreadStart::Invoke(object)  ret
  }
  .method public instance void Start(object) cil managed {
    .maxstack 2
    ldarg.0  ldarg.1  stfld object System.Threading.Thread::argument
    ldarg.0  call instance void [cilvm]Cilvm.Thread::Start()  ret
  }
  .method public static void Sleep(int32) cil managed {
    .maxstack 0
    ret
  }
  .method public static bool Yield() cil managed {
    .maxstack 1
    ldc.i4.1  ret
  }
}

.class public auto ansi sealed System.Threading.ThreadStart extends [mscorlib]System.MulticastDelegate {
  .method public virtual newslot instance void Invoke() runtime managed {}
}

.class public auto ansi sealed System.Threading.ParameterizedThreadStart extends [mscorlib]System.MulticastDelegate {
  .method public virtual newslot instance void Invoke(object) runtime managed {}
}

.class public auto ansi System.Threading.Monitor extends [mscorlib]System.Object {
  .method public static bool Wait(object) cil managed {
    .maxstack 1
    ldarg.0  call void [mscorlib]System.Threading.Monitor::Exit(object)
    ldarg.0  call void [mscorlib]System.Threading.Monitor::Enter(object)
    ldc.i4.1  ret
  }
  .method public static void Pulse(object) cil managed {
    .maxstack 0
    ret
  }
  .method public static void PulseAll(object) cil managed {
    .maxstack 0
    ret
  }
}

.class public auto ansi System.Threading.Interlocked extends [mscorlib]System.Object {
  .field public static object gate
  .method private static void .cctor() cil managed {
    .maxstack 1
    newobj instance void [mscorlib]System.Object::.ctor()  stsfld object System.Threading.Interlocked::gate  ret
  }
  .method public static int32 Add(int32&, int32) cil managed {
    .maxstack 3
    .locals init (int32 result)
    ldsfld object System.Threading.Interlocked::gate  call void [mscorlib]System.Threading.Monitor::Enter(object)
    ldarg.0  ldind.i4  ldarg.1  add  stloc.0
    ldarg.0  ldloc.0  stind.i4
    ldsfld object System.Threading.Interlocked::gate  call void [mscorlib]System.Threading.Monitor::Exit(object)
    ldloc.0  ret
  }
  .method public static int64 Add(int64&, int64) cil managed {
    .maxstack 3
    .locals init (int64 result)
    ldsfld object System.Threading.Interlocked::gate  call void [mscorlib]System.Threading.Monitor::Enter(object)
    ldarg.0  ldind.i8  ldarg.1  add  stloc.0
    ldarg.0  ldloc.0  stind.i8
    ldsfld object System.Threading.Interlocked::gate  call void [mscorlib]System.Threading.Monitor::Exit(object)
    ldloc.0  ret
  }
  .method public static int32 Increment(int32&) cil managed {
    .maxstack 2
    ldarg.0  ldc.i4.1  call int32 System.Threading.Interlocked::Add(int32&, int32)  ret
  }
  .method public static int64 Increment(int64&) cil managed {
    .maxstack 2
    ldarg.0  ldc.i8 1  call int64 System.Threading.Interlocked::Add(int64&, int64)  ret
  }
  .method public static int32 Decrement(int32&) cil managed {
    .maxstack 2
    ldarg.0  ldc.i4.m1  call int32 System.Threading.Interlocked::Add(int32&, int32)  ret
  }
  .method public static int64 Decrement(int64&) cil managed {
    .maxstack 2
    ldarg.0  ldc.i8 -1  call int64 System.Threading.Interlocked::Add(int64&, int64)  ret
  }
  .method public static int32 Exchange(int32&, int32) cil managed {
    .maxstack 2
    .locals init (int32 old)
    ldsfld object System.Threading.Interlocked::gate  call void [mscorlib]System.Threading.Monitor::Enter(object)
    ldarg.0  ldind.i4  stloc.0
    ldarg.0  ldarg.1  stind.i4
    ldsfld object System.Threading.Interlocked::gate  call void [mscorlib]System.Threading.Monitor::Exit(object)
    ldloc.0  ret
  }
  .method public static int32 CompareExchange(int32&, int32, int32) cil managed {
    .maxstack 2
    .locals init (int32 old)
    ldsfld object System.Threading.Interlocked::gate  call void [mscorlib]System.Threading.Monitor::Enter(object)
    ldarg.0  ldind.i4  stloc.0
    ldloc.0  ldarg.2  bne.un DONE
    ldarg.0  ldarg.1  stind.i4
    DONE: ldsfld object System.Threading.Interlocked::gate  call void [mscorlib]System.Threading.Monitor::Exit(object)
    ldloc.0  ret
  }
}
