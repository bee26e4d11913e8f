.assembly extern mscorlib {}
.class public auto ansi A extends B {}
.class public auto ansi B extends A {}
