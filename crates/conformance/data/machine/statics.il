.assembly extern mscorlib {}
.class public auto ansi A extends [mscorlib]System.Object {
 .field public static int32 shared
 .field public static string text
}
.class public auto ansi B extends A {}
.class public auto ansi P extends [mscorlib]System.Object {
 .field public static int64 other
 .method public static void Main() cil managed {
  .entrypoint
  .maxstack 2
  ldc.i4.5
  stsfld int32 A::shared
  ldsfld int32 B::shared
  call void [mscorlib]System.Console::WriteLine(int32)
  ldsfld int64 P::other
  call void [mscorlib]System.Console::WriteLine(int64)
  ldstr "b"
  stsfld string B::text
  ldsfld string A::text
  call void [mscorlib]System.Console::WriteLine(string)
  ret
 }
}
