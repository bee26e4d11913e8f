.assembly extern mscorlib {}
.class public auto ansi P extends [mscorlib]System.Object {
 .method public static void Main() cil managed {
  .entrypoint
  .maxstack 2
  ldstr "a"
  ldstr "a"
  ceq
  call void [mscorlib]System.Console::WriteLine(int32)
  ret
 }
}
