.assembly extern mscorlib {}
.class public auto ansi P extends [mscorlib]System.Object {
 .method public static void Main() cil managed {
  .entrypoint
  .maxstack 2
  ldstr "hello"
  call void [mscorlib]System.Console::WriteLine(string)
  ldnull
  call void [mscorlib]System.Console::WriteLine(string)
  ret
 }
}
