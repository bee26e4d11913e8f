// List, Queue, Stack and Dictionary, each with as much as programs commonly use, and the interfaces of foreach.
.class interface public abstract auto ansi System.IDisposable {
  .method public newslot abstract virtual instance void Dispose() cil managed {}
}

.class interface public abstract auto ansi System.IComparable`1<T> {
  .method public newslot abstract virtual instance int32 CompareTo(!0) cil managed {}
}

.class interface public abstract auto ansi System.IEquatable`1<T> {
  .method public newslot abstract virtual instance bool Equals(!0) cil managed {}
}

.class interface public abstract auto ansi System.Collections.Generic.IComparer`1<T> {
  .method public newslot abstract virtual instance int32 Compare(!0, !0) cil managed {}
}

.class interface public abstract auto ansi System.Collections.IEnumerator {
  .method public newslot abstract virtual instance bool MoveNext() cil managed {}
  .method public newslot abstract virtual instance object get_Current() cil managed {}
}

.class interface public abstract auto ansi System.Collections.IEnumerable {
  .method public newslot abstract virtual instance class System.Collections.IEnumerator GetEnumerator() cil managed {}
}

.class interface public abstract auto ansi System.Collections.Generic.IEnumerator`1<T>
  implements System.Collections.IEnumerator, System.IDisposable {
  .method public newslot abstract virtual instance !0 get_Current() cil managed {}
}

.class interface public abstract auto ansi System.Collections.Generic.IEnumerable`1<T> implements System.Collections.IEnumerable {
  .method public newslot abstract virtual instance class System.Collections.Generic.IEnumerator`1<!0> GetEnumerator() cil managed {}
}

.class public auto ansi System.Collections.Generic.List`1<T> extends [mscorlib]System.Object {
  .field public !0[] items
  .field public int32 count
  .method public specialname rtspecialname instance void .ctor() cil managed {
    .maxstack 2
    ldarg.0  call instance void [mscorlib]System.Object::.ctor()
    ldarg.0  ldc.i4.4  newarr !0  stfld !0[] class System.Collections.Generic.List`1<!0>::items  ret
  }
  .method public specialname rtspecialname instance void .ctor(int32) cil managed {
    .maxstack 3
    ldarg.0  call instance void [mscorlib]System.Object::.ctor()
    ldarg.0  ldarg.1  ldc.i4.1  add  newarr !0  stfld !0[] class System.Collections.Generic.List`1<!0>::items  ret
  }
  .method public instance int32 get_Count() cil managed {
    .maxstack 1
    ldarg.0  ldfld int32 class System.Collections.Generic.List`1<!0>::count  ret
  }
  // Raises IndexOutOfRangeException unless the index is below the count.
  .method public instance void CheckIndex(int32) cil managed {
    .maxstack 2
    ldarg.1  ldarg.0  ldfld int32 class System.Collections.Generic.List`1<!0>::count  bge OUTSIDE
    ldarg.1  ldc.i4.0  blt OUTSIDE
    ret
    OUTSIDE: ldc.i4.0  newarr int32  ldc.i4.0  ldelem.i4  pop  ret
  }
  .method public instance !0 get_Item(int32) cil managed {
    .maxstack 2
    ldarg.0  ldarg.1  call instance void class System.Collections.Generic.List`1<!0>::CheckIndex(int32)
    ldarg.0  ldfld !0[] class System.Collections.Generic.List`1<!0>::items  ldarg.1  ldelem !0  ret
  }
  .method public instance void set_Item(int32, !0) cil managed {
    .maxstack 3
    ldarg.0  ldarg.1  call instance void class System.Collections.Generic.List`1<!0>::CheckIndex(int32)
    ldarg.0  ldfld !0[] class System.Collections.Generic.List`1<!0>::items  ldarg.1  ldarg.2  stelem !0  ret
  }
  .method public instance void Grow() cil managed {
    .maxstack 4
    .locals init (!0[] larger, int32 index)
    ldarg.0  ldfld !0[] class System.Collections.Generic.List`1<!0>::items  ldlen  conv.i4  ldc.i4.2  mul  newarr !0  stloc.0
    br TEST
    NEXT: ldloc.0  ldloc.1  ldarg.0  ldfld !0[] class System.Collections.Generic.List`1<!0>::items  ldloc.1  ldelem !0  stelem !0
    ldloc.1  ldc.i4.1  add  stloc.1
    TEST: ldloc.1  ldarg.0  ldfld int32 class System.Collections.Generic.List`1<!0>::count  blt NEXT
    ldarg.0  ldloc.0  stfld !0[] class System.Collections.Generic.List`1<!0>::items  ret
  }
  .method public instance void Add(!0) cil managed {
    .maxstack 3
    ldarg.0  ldfld int32 class System.Collections.Generic.List`1<!0>::count
    ldarg.0  ldfld !0[] class System.Collections.Generic.List`1<!0>::items  ldlen  conv.i4  blt ROOM
    ldarg.0  call instance void class System.Collections.Generic.List`1<!0>::Grow()
    ROOM: ldarg.0  ldfld !0[] class System.Collections.Generic.List`1<!0>::items
    ldarg.0  ldfld int32 class System.Collections.Generic.List`1<!0>::count  ldarg.1  stelem !0
    ldarg.0  ldarg.0  ldfld int32 class System.Collections.Generic.List`1<!0>::count  ldc.i4.1  add
    stfld int32 class System.Collections.Generic.List`1<!0>::count  ret
  }
  .method public instance void RemoveAt(int32) cil managed {
    .maxstack 4
    ldarg.0  ldarg.1  call instance void class System.Collections.Generic.List`1<!0>::CheckIndex(int32)
    ldarg.0  ldarg.0  ldfld int32 class System.Collections.Generic.List`1<!0>::count  ldc.i4.1  sub
    stfld int32 class System.Collections.Generic.List`1<!0>::count
    br TEST
    NEXT: ldarg.0  ldfld !0[] class System.Collections.Generic.List`1<!0>::items  ldarg.1
    ldarg.0  ldfld !0[] class System.Collections.Generic.List`1<!0>::items  ldarg.1  ldc.i4.1  add  ldelem !0  stelem !0
    ldarg.1  ldc.i4.1  add  starg 1
    TEST: ldarg.1  ldarg.0  ldfld int32 class System.Collections.Generic.List`1<!0>::count  blt NEXT
    ret
  }
  .method public instance void Insert(int32, !0) cil managed {
    .maxstack 4
    .locals init (int32 index)
    ldarg.0  ldarg.2  call instance void class System.Collections.Generic.List`1<!0>::Add(!0)
    ldarg.0  ldarg.1  call instance void class System.Collections.Generic.List`1<!0>::CheckIndex(int32)
    ldarg.0  ldfld int32 class System.Collections.Generic.List`1<!0>::count  ldc.i4.1  sub  stloc.0
    br TEST
    NEXT: ldarg.0  ldfld !0[] class System.Collections.Generic.List`1<!0>::items  ldloc.0
    ldarg.0  ldfld !0[] class System.Collections.Generic.List`1<!0>::items  ldloc.0  ldc.i4.1  sub  ldelem !0  stelem !0
    ldloc.0  ldc.i4.1  sub  stloc.0
    TEST: ldloc.0  ldarg.1  bgt NEXT
    ldarg.0  ldfld !0[] class System.Collections.Generic.List`1<!0>::items  ldarg.1  ldarg.2  stelem !0  ret
  }
  .method public instance void Clear() cil managed {
    .maxstack 2
    ldarg.0  ldc.i4.0  stfld int32 class System.Collections.Generic.List`1<!0>::count
    ldarg.0  ldc.i4.4  newarr !0  stfld !0[] class System.Collections.Generic.List`1<!0>::items  ret
  }
  .method public instance !0[] ToArray() cil managed {
    .maxstack 4
    .locals init (!0[] copy, int32 index)
    ldarg.0  ldfld int32 class System.Collections.Generic.List`1<!0>::count  newarr !0  stloc.0
    br TEST
    NEXT: ldloc.0  ldloc.1  ldarg.0  ldfld !0[] class System.Collections.Generic.List`1<!0>::items  ldloc.1  ldelem !0  stelem !0
    ldloc.1  ldc.i4.1  add  stloc.1
    TEST: ldloc.1  ldarg.0  ldfld int32 class System.Collections.Generic.List`1<!0>::count  blt NEXT
    ldloc.0  ret
  }
  .method public instance valuetype System.Collections.Generic.List`1/Enumerator<!0> GetEnumerator() cil managed {
    .maxstack 1
    ldarg.0  newobj instance void valuetype System.Collections.Generic.List`1/Enumerator<!0>::.ctor(class System.Collections.Generic.List`1<!0>)
    ret
  }
  .class nested public sequential ansi sealed Enumerator<T> extends [mscorlib]System.ValueType implements System.IDisposable {
    .field public class System.Collections.Generic.List`1<!0> list
    .field public int32 next
    .method public specialname rtspecialname instance void .ctor(class System.Collections.Generic.List`1<!0>) cil managed {
      .maxstack 2
      ldarg.0  ldarg.1
      stfld class System.Collections.Generic.List`1<!0> valuetype System.Collections.Generic.List`1/Enumerator<!0>::list  ret
    }
    .method public instance bool MoveNext() cil managed {
      .maxstack 3
      ldarg.0  ldarg.0  ldfld int32 valuetype System.Collections.Generic.List`1/Enumerator<!0>::next  ldc.i4.1  add
      stfld int32 valuetype System.Collections.Generic.List`1/Enumerator<!0>::next
      ldarg.0  ldfld class System.Collections.Generic.List`1<!0> valuetype System.Collections.Generic.List`1/Enumerator<!0>::list
      ldfld int32 class System.Collections.Generic.List`1<!0>::count
      ldarg.0  ldfld int32 valuetype System.Collections.Generic.List`1/Enumerator<!0>::next  clt  ldc.i4.0  ceq  ret
    }
    .method public instance !0 get_Current() cil managed {
      .maxstack 3
      ldarg.0  ldfld class System.Collections.Generic.List`1<!0> valuetype System.Collections.Generic.List`1/Enumerator<!0>::list
      ldfld !0[] class System.Collections.Generic.List`1<!0>::items
      ldarg.0  ldfld int32 valuetype System.Collections.Generic.List`1/Enumerator<!0>::next  ldc.i4.1  sub  ldelem !0  ret
    }
    .method public newslot virtual instance void Dispose() cil managed {
      .maxstack 0
      ret
    }
  }
}

.class public auto ansi System.Collections.Generic.Stack`1<T> extends [mscorlib]System.Object {
  .field public class System.Collections.Generic.List`1<!0> list
  .method public specialname rtspecialname instance void .ctor() cil managed {
    .maxstack 2
    ldarg.0  call instance void [mscorlib]System.Object::.ctor()
    ldarg.0  newobj instance void class System.Collections.Generic.List`1<!0>::.ctor()
    stfld class System.Collections.Generic.List`1<!0> class System.Collections.Generic.Stack`1<!0>::list  ret
  }
  .method public instance int32 get_Count() cil managed {
    .maxstack 1
    ldarg.0  ldfld class System.Collections.Generic.List`1<!0> class System.Collections.Generic.Stack`1<!0>::list
    ldfld int32 class System.Collections.Generic.List`1<!0>::count  ret
  }
  .method public instance void Push(!0) cil managed {
    .maxstack 2
    ldarg.0  ldfld class System.Collections.Generic.List`1<!0> class System.Collections.Generic.Stack`1<!0>::list
    ldarg.1  call instance void class System.Collections.Generic.List`1<!0>::Add(!0)  ret
  }
  .method public instance !0 Peek() cil managed {
    .maxstack 3
    ldarg.0  ldfld class System.Collections.Generic.List`1<!0> class System.Collections.Generic.Stack`1<!0>::list
    ldarg.0  call instance int32 class System.Collections.Generic.Stack`1<!0>::get_Count()  ldc.i4.1  sub
    call instance !0 class System.Collections.Generic.List`1<!0>::get_Item(int32)  ret
  }
  .method public instance !0 Pop() cil managed {
    .maxstack 4
    ldarg.0  call instance !0 class System.Collections.Generic.Stack`1<!0>::Peek()
    ldarg.0  ldfld class System.Collections.Generic.List`1<!0> class System.Collections.Generic.Stack`1<!0>::list
    ldarg.0  call instance int32 class System.Collections.Generic.Stack`1<!0>::get_Count()  ldc.i4.1  sub
    call instance void class System.Collections.Generic.List`1<!0>::RemoveAt(int32)  ret
  }
  .method public instance void Clear() cil managed {
    .maxstack 1
    ldarg.0  ldfld class System.Collections.Generic.List`1<!0> class System.Collections.Generic.Stack`1<!0>::list
    call instance void class System.Collections.Generic.List`1<!0>::Clear()  ret
  }
}

// A ring: the oldest item is at first, and count items follow.
.class public auto ansi System.Collections.Generic.Queue`1<T> extends [mscorlib]System.Object {
  .field public !0[] items
  .field public int32 first
  .field public int32 count
  .method public specialname rtspecialname instance void .ctor() cil managed {
    .maxstack 2
    ldarg.0  call instance void [mscorlib]System.Object::.ctor()
    ldarg.0  ldc.i4.4  newarr !0  stfld !0[] class System.Collections.Generic.Queue`1<!0>::items  ret
  }
  .method public instance int32 get_Count() cil managed {
    .maxstack 1
    ldarg.0  ldfld int32 class System.Collections.Generic.Queue`1<!0>::count  ret
  }
  .method public instance int32 Place(int32) cil managed {
    .maxstack 3
    ldarg.0  ldfld int32 class System.Collections.Generic.Queue`1<!0>::first  ldarg.1  add
    ldarg.0  ldfld !0[] class System.Collections.Generic.Queue`1<!0>::items  ldlen  conv.i4  rem  ret
  }
  .method public instance void Grow() cil managed {
    .maxstack 5
    .locals init (!0[] larger, int32 index)
    ldarg.0  ldfld !0[] class System.Collections.Generic.Queue`1<!0>::items  ldlen  conv.i4  ldc.i4.2  mul  newarr !0  stloc.0
    br TEST
    NEXT: ldloc.0  ldloc.1  ldarg.0  ldfld !0[] class System.Collections.Generic.Queue`1<!0>::items
    ldarg.0  ldloc.1  call instance int32 class System.Collections.Generic.Queue`1<!0>::Place(int32)  ldelem !0  stelem !0
    ldloc.1  ldc.i4.1  add  stloc.1
    TEST: ldloc.1  ldarg.0  ldfld int32 class System.Collections.Generic.Queue`1<!0>::count  blt NEXT
    ldarg.0  ldloc.0  stfld !0[] class System.Collections.Generic.Queue`1<!0>::items
    ldarg.0  ldc.i4.0  stfld int32 class System.Collections.Generic.Queue`1<!0>::first  ret
  }
  .method public instance void Enqueue(!0) cil managed {
    .maxstack 3
    ldarg.0  ldfld int32 class System.Collections.Generic.Queue`1<!0>::count
    ldarg.0  ldfld !0[] class System.Collections.Generic.Queue`1<!0>::items  ldlen  conv.i4  blt ROOM
    ldarg.0  call instance void class System.Collections.Generic.Queue`1<!0>::Grow()
    ROOM: ldarg.0  ldfld !0[] class System.Collections.Generic.Queue`1<!0>::items
    ldarg.0  ldarg.0  ldfld int32 class System.Collections.Generic.Queue`1<!0>::count
    call instance int32 class System.Collections.Generic.Queue`1<!0>::Place(int32)  ldarg.1  stelem !0
    ldarg.0  ldarg.0  ldfld int32 class System.Collections.Generic.Queue`1<!0>::count  ldc.i4.1  add
    stfld int32 class System.Collections.Generic.Queue`1<!0>::count  ret
  }
  .method public instance !0 Peek() cil managed {
    .maxstack 2
    ldarg.0  ldfld int32 class System.Collections.Generic.Queue`1<!0>::count  brtrue SOME
    ldc.i4.0  newarr int32  ldc.i4.0  ldelem.i4  pop
    SOME: ldarg.0  ldfld !0[] class System.Collections.Generic.Queue`1<!0>::items
    ldarg.0  ldfld int32 class System.Collections.Generic.Queue`1<!0>::first  ldelem !0  ret
  }
  .method public instance !0 Dequeue() cil managed {
    .maxstack 4
    ldarg.0  call instance !0 class System.Collections.Generic.Queue`1<!0>::Peek()
    ldarg.0  ldarg.0  ldc.i4.1  call instance int32 class System.Collections.Generic.Queue`1<!0>::Place(int32)
    stfld int32 class System.Collections.Generic.Queue`1<!0>::first
    ldarg.0  ldarg.0  ldfld int32 class System.Collections.Generic.Queue`1<!0>::count  ldc.i4.1  sub
    stfld int32 class System.Collections.Generic.Queue`1<!0>::count  ret
  }
  .method public instance void Clear() cil managed {
    .maxstack 2
    ldarg.0  ldc.i4.0  stfld int32 class System.Collections.Generic.Queue`1<!0>::count  ret
  }
}

// The keys in the order in which they came, and their values.
.class public auto ansi System.Collections.Generic.Dictionary`2<K, V> extends [mscorlib]System.Object {
  .field public class System.Collections.Generic.List`1<!0> keys
  .field public class System.Collections.Generic.List`1<!1> values
  .method public specialname rtspecialname instance void .ctor() cil managed {
    .maxstack 2
    ldarg.0  call instance void [mscorlib]System.Object::.ctor()
    ldarg.0  newobj instance void class System.Collections.Generic.List`1<!0>::.ctor()
    stfld class System.Collections.Generic.List`1<!0> class System.Collections.Generic.Dictionary`2<!0, !1>::keys
    ldarg.0  newobj instance void class System.Collections.Generic.List`1<!1>::.ctor()
    stfld class System.Collections.Generic.List`1<!1> class System.Collections.Generic.Dictionary`2<!0, !1>::values  ret
  }
  .method public instance int32 get_Count() cil managed {
    .maxstack 1
    ldarg.0  ldfld class System.Collections.Generic.List`1<!0> class System.Collections.Generic.Dictionary`2<!0, !1>::keys
    ldfld int32 class System.Collections.Generic.List`1<!0>::count  ret
  }
  // The index of a key, -1 if there is none.
  .method public instance int32 IndexOf(!0) cil managed {
    .maxstack 3
    .locals init (int32 index)
    ldarg.0  call instance int32 class System.Collections.Generic.Dictionary`2<!0, !1>::get_Count()  stloc.0
    br TEST
    NEXT: ldarg.0  ldfld class System.Collections.Generic.List`1<!0> class System.Collections.Generic.Dictionary`2<!0, !1>::keys
    ldloc.0  call instance !0 class System.Collections.Generic.List`1<!0>::get_Item(int32)  ldarg.1  beq FOUND
    TEST: ldloc.0  ldc.i4.1  sub  stloc.0
    ldloc.0  ldc.i4.0  bge NEXT
    FOUND: ldloc.0  ret
  }
  .method public instance bool ContainsKey(!0) cil managed {
    .maxstack 2
    ldarg.0  ldarg.1  call instance int32 class System.Collections.Generic.Dictionary`2<!0, !1>::IndexOf(!0)
    ldc.i4.m1  cgt  ret
  }
  .method public instance !1 get_Item(!0) cil managed {
    .maxstack 3
    ldarg.0  ldfld class System.Collections.Generic.List`1<!1> class System.Collections.Generic.Dictionary`2<!0, !1>::values
    ldarg.0  ldarg.1  call instance int32 class System.Collections.Generic.Dictionary`2<!0, !1>::IndexOf(!0)
    call instance !1 class System.Collections.Generic.List`1<!1>::get_Item(int32)  ret
  }
  .method public instance void set_Item(!0, !1) cil managed {
    .maxstack 3
    .locals init (int32 index)
    ldarg.0  ldarg.1  call instance int32 class System.Collections.Generic.Dictionary`2<!0, !1>::IndexOf(!0)  stloc.0
    ldloc.0  ldc.i4.0  blt MORE
    ldarg.0  ldfld class System.Collections.Generic.List`1<!1> class System.Collections.Generic.Dictionary`2<!0, !1>::values
    ldloc.0  ldarg.2  call instance void class System.Collections.Generic.List`1<!1>::set_Item(int32, !1)  ret
    MORE: ldarg.0  ldfld class System.Collections.Generic.List`1<!0> class System.Collections.Generic.Dictionary`2<!0, !1>::keys
    ldarg.1  call instance void class System.Collections.Generic.List`1<!0>::Add(!0)
    ldarg.0  ldfld class System.Collections.Generic.List`1<!1> class System.Collections.Generic.Dictionary`2<!0, !1>::values
    ldarg.2  call instance void class System.Collections.Generic.List`1<!1>::Add(!1)  ret
  }
  // Raises IndexOutOfRangeException where the key is there already.
  .method public instance void Add(!0, !1) cil managed {
    .maxstack 3
    ldarg.0  ldarg.1  call instance bool class System.Collections.Generic.Dictionary`2<!0, !1>::ContainsKey(!0)  brfalse NEW
    ldc.i4.0  newarr int32  ldc.i4.0  ldelem.i4  pop
    NEW: ldarg.0  ldarg.1  ldarg.2  call instance void class System.Collections.Generic.Dictionary`2<!0, !1>::set_Item(!0, !1)  ret
  }
  .method public instance bool TryGetValue(!0, !1&) cil managed {
    .maxstack 3
    .locals init (int32 index)
    ldarg.0  ldarg.1  call instance int32 class System.Collections.Generic.Dictionary`2<!0, !1>::IndexOf(!0)  stloc.0
    ldloc.0  ldc.i4.0  blt NONE
    ldarg.2  ldarg.0  ldfld class System.Collections.Generic.List`1<!1> class System.Collections.Generic.Dictionary`2<!0, !1>::values
    ldloc.0  call instance !1 class System.Collections.Generic.List`1<!1>::get_Item(int32)  stobj !1
    ldc.i4.1  ret
    NONE: ldarg.2  initobj !1  ldc.i4.0  ret
  }
  .method public instance bool Remove(!0) cil managed {
    .maxstack 2
    .locals init (int32 index)
    ldarg.0  ldarg.1  call instance int32 class System.Collections.Generic.Dictionary`2<!0, !1>::IndexOf(!0)  stloc.0
    ldloc.0  ldc.i4.0  blt NONE
    ldarg.0  ldfld class System.Collections.Generic.List`1<!0> class System.Collections.Generic.Dictionary`2<!0, !1>::keys
    ldloc.0  call instance void class System.Collections.Generic.List`1<!0>::RemoveAt(int32)
    ldarg.0  ldfld class System.Collections.Generic.List`1<!1> class System.Collections.Generic.Dictionary`2<!0, !1>::values
    ldloc.0  call instance void class System.Collections.Generic.List`1<!1>::RemoveAt(int32)
    ldc.i4.1  ret
    NONE: ldc.i4.0  ret
  }
}
