.assembly extern mscorlib {}
.class public auto ansi P extends [mscorlib]System.Object {
 .method public static void Main() cil managed {
  .entrypoint
  .maxstack 1
  ldnull
  call void [mscorlib]System.Threading.Monitor::Enter(object)
  ret
 }
}
