// Nine threads add to one total, each five times while it holds the monitor of the gate, and count their turns without it.
// No addition to the total is lost, and some of the turns are.
// Run: ./cilvm picture many.il many.schedule --words 400 > many.svg
.assembly extern mscorlib {}
.assembly extern cilvm {}
.assembly many {}

.class public auto ansi Adder extends [cilvm]Cilvm.Thread {
  .method public specialname rtspecialname instance void .ctor() cil managed {
    .maxstack 1
    ldarg.0  call instance void [cilvm]Cilvm.Thread::.ctor()  ret
  }
  .method public virtual instance void Run() cil managed {
    .maxstack 2
    .locals init (int32 i)
    br TEST
    NEXT:
    ldc.i4.8  newarr int32  pop
    ldsfld object P::gate  call void [mscorlib]System.Threading.Monitor::Enter(object)
    ldsfld int32 P::total  ldc.i4.1  add  stsfld int32 P::total
    ldsfld object P::gate  call void [mscorlib]System.Threading.Monitor::Exit(object)
    ldsfld int32 P::turns  ldc.i4.1  add  stsfld int32 P::turns
    ldloc.0  ldc.i4.1  add  stloc.0
    TEST: ldloc.0  ldc.i4.5  blt NEXT
    ret
  }
}

.class public auto ansi P extends [mscorlib]System.Object {
  .field public static object gate
  .field public static int32 total
  .field public static int32 turns

  .method public static void Main() cil managed {
    .entrypoint
    .maxstack 3
    .locals init (class Adder[] adders, int32 i)
    newobj instance void [mscorlib]System.Object::.ctor()  stsfld object P::gate
    ldc.i4 9  newarr class Adder  stloc.0
    START:
    ldloc.0  ldloc.1  newobj instance void Adder::.ctor()  stelem.ref
    ldloc.0  ldloc.1  ldelem.ref  callvirt instance void [cilvm]Cilvm.Thread::Start()
    ldloc.1  ldc.i4.1  add  stloc.1
    ldloc.1  ldc.i4 9  blt START
    ldc.i4.0  stloc.1
    JOIN:
    ldloc.0  ldloc.1  ldelem.ref  callvirt instance void [cilvm]Cilvm.Thread::Join()
    ldloc.1  ldc.i4.1  add  stloc.1
    ldloc.1  ldc.i4 9  blt JOIN
    ldsfld int32 P::total  call void [mscorlib]System.Console::WriteLine(int32)
    ldsfld int32 P::turns  call void [mscorlib]System.Console::WriteLine(int32)
    ret
  }
}
