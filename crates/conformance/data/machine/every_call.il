.assembly extern mscorlib {}
.class public auto ansi F extends [mscorlib]System.Object {
 .method public static void Tell(int32, int32, int32, int64, string, int64, int32, int32, int32, int32, int32, int32, int32, int32, int32, int32) cil managed {
  .maxstack 1
  ldarg.0  call void [mscorlib]System.Console::WriteLine(int32)
  ldarg.1  call void [mscorlib]System.Console::WriteLine(int32)
  ldarg.2  call void [mscorlib]System.Console::WriteLine(int32)
  ldarg.3  call void [mscorlib]System.Console::WriteLine(int64)
  ldarg 4  call void [mscorlib]System.Console::WriteLine(string)
  ldarg 5  call void [mscorlib]System.Console::WriteLine(int64)
  ldarg 6  call void [mscorlib]System.Console::WriteLine(int32)
  ldarg 7  call void [mscorlib]System.Console::WriteLine(int32)
  ldarg 8  call void [mscorlib]System.Console::WriteLine(int32)
  ldarg 9  call void [mscorlib]System.Console::WriteLine(int32)
  ldarg 10  call void [mscorlib]System.Console::WriteLine(int32)
  ldarg 11  call void [mscorlib]System.Console::WriteLine(int32)
  ldarg 12  call void [mscorlib]System.Console::WriteLine(int32)
  ldarg 13  call void [mscorlib]System.Console::WriteLine(int32)
  ldarg 14  call void [mscorlib]System.Console::WriteLine(int32)
  ldarg 15  call void [mscorlib]System.Console::WriteLine(int32)
  ldc.i4 100  starg 0
  ldc.i8 300  starg 3
  ldstr "other"  starg 4
  ldc.i4 1500  starg 15
  ldarg.0  call void [mscorlib]System.Console::WriteLine(int32)
  ldarg.3  call void [mscorlib]System.Console::WriteLine(int64)
  ldarg 4  call void [mscorlib]System.Console::WriteLine(string)
  ldarg 15  call void [mscorlib]System.Console::WriteLine(int32)
  ldarg.1  call void [mscorlib]System.Console::WriteLine(int32)
  ret
 }
 .method public static int32 Sum(int32, int32) cil managed {
  .maxstack 2
  ldarg.0  ldarg.1  sub  ret
 }
 .method public static int64 Wide(int64) cil managed {
  .maxstack 2
  ldarg.0  ldc.i8 1  add  ret
 }
 .method public static string Same(string) cil managed {
  .maxstack 1
  ldarg.0  ret
 }
 .method public static int32[] Numbers() cil managed {
  .maxstack 1
  ldc.i4.4  newarr int32  ret
 }
 .method public static void Nothing() cil managed {
  .maxstack 1
  ret
 }
 .method public static int32 Factorial(int32) cil managed {
  .maxstack 3
  ldarg.0  brtrue MORE
  ldc.i4.1  ret
  MORE: ldarg.0  ldarg.0  ldc.i4.1  sub  call int32 F::Factorial(int32)  mul  ret
 }
}
.class public auto ansi Pair extends [mscorlib]System.Object {
 .field public int32 first
 .field public int64 second
 .method public specialname rtspecialname instance void .ctor(int32, int64) cil managed {
  .maxstack 2
  ldarg.0  call instance void [mscorlib]System.Object::.ctor()
  ldarg.0  ldarg.1  stfld int32 Pair::first
  ldarg.0  ldarg.2  stfld int64 Pair::second
  ret
 }
 .method public instance int32 First(int32) cil managed {
  .maxstack 2
  ldarg.0  ldfld int32 Pair::first  ldarg.1  sub  ret
 }
}
.class public auto ansi P extends [mscorlib]System.Object {
 .method public static void Main() cil managed {
  .entrypoint
  .maxstack 16
  .locals init (class Pair pair)
  ldc.i4 1  ldc.i4 2  ldc.i4 3  ldc.i8 4000000000  ldstr "five"  ldc.i8 6000000000  ldc.i4 7  ldc.i4 8  ldc.i4 9  ldc.i4 10  ldc.i4 11  ldc.i4 12  ldc.i4 13  ldc.i4 14  ldc.i4 15  ldc.i4 16
  call void F::Tell(int32, int32, int32, int64, string, int64, int32, int32, int32, int32, int32, int32, int32, int32, int32, int32)
  ldc.i4.7  ldc.i4.2  call int32 F::Sum(int32, int32)  call void [mscorlib]System.Console::WriteLine(int32)
  ldc.i4.7  ldc.i4.3  ldc.i4.2  call int32 F::Sum(int32, int32)  mul  call void [mscorlib]System.Console::WriteLine(int32)
  ldc.i8 9000000000  call int64 F::Wide(int64)  call void [mscorlib]System.Console::WriteLine(int64)
  ldstr "same"  call string F::Same(string)  call void [mscorlib]System.Console::WriteLine(string)
  call int32[] F::Numbers()  ldlen  conv.i4  call void [mscorlib]System.Console::WriteLine(int32)
  ldc.i4.8  call void F::Nothing()  call void [mscorlib]System.Console::WriteLine(int32)
  ldc.i4.5  call int32 F::Factorial(int32)  call void [mscorlib]System.Console::WriteLine(int32)
  ldc.i4.6  ldc.i4.1  ldc.i8 2  newobj instance void Pair::.ctor(int32, int64)  stloc.0  call void [mscorlib]System.Console::WriteLine(int32)
  ldloc.0  ldfld int32 Pair::first  call void [mscorlib]System.Console::WriteLine(int32)
  ldloc.0  ldfld int64 Pair::second  call void [mscorlib]System.Console::WriteLine(int64)
  ldloc.0  ldc.i4.5  call instance int32 Pair::First(int32)  call void [mscorlib]System.Console::WriteLine(int32)
  ldloc.0  ldc.i4.6  callvirt instance int32 Pair::First(int32)  call void [mscorlib]System.Console::WriteLine(int32)
  ret
 }
}
