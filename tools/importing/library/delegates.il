// The delegates of .NET that C# programs name.
.class public auto ansi sealed System.Action extends [mscorlib]System.MulticastDelegate {
  .method public virtual newslot instance void Invoke() runtime managed {}
}
.class public auto ansi sealed System.Action`1<T> extends [mscorlib]System.MulticastDelegate {
  .method public virtual newslot instance void Invoke(!0) runtime managed {}
}
.class public auto ansi sealed System.Action`2<T, U> extends [mscorlib]System.MulticastDelegate {
  .method public virtual newslot instance void Invoke(!0, !1) runtime managed {}
}
.class public auto ansi sealed System.Func`1<R> extends [mscorlib]System.MulticastDelegate {
  .method public virtual newslot instance !0 Invoke() runtime managed {}
}
.class public auto ansi sealed System.Func`2<T, R> extends [mscorlib]System.MulticastDelegate {
  .method public virtual newslot instance !1 Invoke(!0) runtime managed {}
}
.class public auto ansi sealed System.Func`3<T, U, R> extends [mscorlib]System.MulticastDelegate {
  .method public virtual newslot instance !2 Invoke(!0, !1) runtime managed {}
}
.class public auto ansi sealed System.Predicate`1<T> extends [mscorlib]System.MulticastDelegate {
  .method public virtual newslot instance bool Invoke(!0) runtime managed {}
}
.class public auto ansi sealed System.Comparison`1<T> extends [mscorlib]System.MulticastDelegate {
  .method public virtual newslot instance int32 Invoke(!0, !0) runtime managed {}
}
