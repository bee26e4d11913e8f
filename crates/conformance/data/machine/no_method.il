.assembly extern mscorlib {}
.class interface public abstract auto ansi I {
 .method public newslot abstract virtual instance void f() cil managed {}
}
.class public auto ansi A extends [mscorlib]System.Object implements I {}
.class public auto ansi P extends [mscorlib]System.Object {
 .method public static void Main() cil managed {
  .entrypoint
  .maxstack 0
  ret
 }
}
