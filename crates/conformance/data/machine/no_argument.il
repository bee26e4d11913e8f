.assembly extern mscorlib {}
.class public auto ansi P extends [mscorlib]System.Object {
 .method public static void two(int32, int32) cil managed {
  .maxstack 1
  ldarg 3
  pop
  ret
 }
 .method public static void Main() cil managed {
  .entrypoint
  .maxstack 0
  ret
 }
}
