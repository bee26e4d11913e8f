.assembly extern mscorlib {}
.class public auto ansi P extends [mscorlib]System.Object {}
.class public auto ansi P extends [mscorlib]System.Object {}
