.assembly extern mscorlib {}
.class public auto ansi S extends [mscorlib]System.Object {
 .field public static int32 number
 .field public static int64 wide
 .field public static string text
 .field public static class S next
 .field public static int32[] numbers
 .field public static object any
}
.class public auto ansi P extends [mscorlib]System.Object {
 .method public static void Main() cil managed {
  .entrypoint
  .maxstack 2
  ldsfld int32 S::number  call void [mscorlib]System.Console::WriteLine(int32)
  ldsfld int64 S::wide  call void [mscorlib]System.Console::WriteLine(int64)
  ldsfld string S::text  call void [mscorlib]System.Console::WriteLine(string)
  ldsfld int32[] S::numbers  ldnull  ceq  call void [mscorlib]System.Console::WriteLine(int32)
  ldsfld object S::any  ldnull  ceq  call void [mscorlib]System.Console::WriteLine(int32)
  ldc.i4 -7  stsfld int32 S::number
  ldsfld int32 S::number  call void [mscorlib]System.Console::WriteLine(int32)
  ldc.i8 9000000000  stsfld int64 S::wide
  ldsfld int64 S::wide  call void [mscorlib]System.Console::WriteLine(int64)
  ldstr "text"  stsfld string S::text
  ldsfld string S::text  call void [mscorlib]System.Console::WriteLine(string)
  ldc.i4.2  newarr int32  stsfld int32[] S::numbers
  ldsfld int32[] S::numbers  ldnull  ceq  call void [mscorlib]System.Console::WriteLine(int32)
  ldstr "any"  stsfld object S::any
  ldsfld object S::any  ldnull  ceq  call void [mscorlib]System.Console::WriteLine(int32)
  ldsfld class S S::next  ldnull  ceq  call void [mscorlib]System.Console::WriteLine(int32)
  ldsfld int32[] S::numbers  ldlen  conv.i4  call void [mscorlib]System.Console::WriteLine(int32)
  ldsfld object S::any  castclass string  call void [mscorlib]System.Console::WriteLine(string)
  ldsfld int32 S::number  call void [mscorlib]System.Console::WriteLine(int32)
  ret
 }
}
