.assembly extern mscorlib {}
.class public auto ansi P extends [mscorlib]System.Object {
 .field public int32 age
 .method public static int32 ageOf(class P) cil managed {
  .maxstack 1
  ldarg.0
  ldfld int32 P::age
  ret
 }
 .method public static void Main() cil managed {
  .entrypoint
  .maxstack 2
  ldc.i4.1
  ldnull
  call int32 P::ageOf(class P)
  add
  pop
  ret
 }
}
