// What replaces boxes, addresses, arrays of two dimensions, nullable values, and the methods of object and string.
.class public auto ansi Importer.Box`1<T> extends [mscorlib]System.Object {
  .field public !0 'value'
  .method public specialname rtspecialname instance void .ctor(!0) cil managed {
    .maxstack 2
    ldarg.0  call instance void [mscorlib]System.Object::.ctor()
    ldarg.0  ldarg.1  stfld !0 class Importer.Box`1<!0>::'value'  ret
  }
  .method public virtual instance bool Equals(object) cil managed {
    .maxstack 2
    ldarg.1  isinst class Importer.Box`1<!0>  brfalse NO
    ldarg.0  ldfld !0 class Importer.Box`1<!0>::'value'
    ldarg.1  castclass class Importer.Box`1<!0>  ldfld !0 class Importer.Box`1<!0>::'value'  ceq  ret
    NO: ldc.i4.0  ret
  }
}

.class public abstract auto ansi Importer.Reference`1<T> extends [mscorlib]System.Object {
  .method public specialname rtspecialname instance void .ctor() cil managed {
    .maxstack 1
    ldarg.0  call instance void [mscorlib]System.Object::.ctor()  ret
  }
  .method public newslot abstract virtual instance !0 Get() cil managed {}
  .method public newslot abstract virtual instance void Set(!0) cil managed {}
}

.class public auto ansi Importer.Variable`1<T> extends class Importer.Reference`1<!0> {
  .field public !0 'value'
  .method public specialname rtspecialname instance void .ctor() cil managed {
    .maxstack 1
    ldarg.0  call instance void class Importer.Reference`1<!0>::.ctor()  ret
  }
  .method public virtual instance !0 Get() cil managed {
    .maxstack 1
    ldarg.0  ldfld !0 class Importer.Variable`1<!0>::'value'  ret
  }
  .method public virtual instance void Set(!0) cil managed {
    .maxstack 2
    ldarg.0  ldarg.1  stfld !0 class Importer.Variable`1<!0>::'value'  ret
  }
}

.class public auto ansi Importer.Element`1<T> extends class Importer.Reference`1<!0> {
  .field public !0[] 'array'
  .field public int32 index
  .method public specialname rtspecialname instance void .ctor(!0[], int32) cil managed {
    .maxstack 2
    ldarg.0  call instance void class Importer.Reference`1<!0>::.ctor()
    ldarg.1  ldarg.2  ldelem !0  pop
    ldarg.0  ldarg.1  stfld !0[] class Importer.Element`1<!0>::'array'
    ldarg.0  ldarg.2  stfld int32 class Importer.Element`1<!0>::index  ret
  }
  .method public virtual instance !0 Get() cil managed {
    .maxstack 2
    ldarg.0  ldfld !0[] class Importer.Element`1<!0>::'array'
    ldarg.0  ldfld int32 class Importer.Element`1<!0>::index  ldelem !0  ret
  }
  .method public virtual instance void Set(!0) cil managed {
    .maxstack 3
    ldarg.0  ldfld !0[] class Importer.Element`1<!0>::'array'
    ldarg.0  ldfld int32 class Importer.Element`1<!0>::index  ldarg.1  stelem !0  ret
  }
}

.class public auto ansi Importer.Rectangle`1<T> extends [mscorlib]System.Object {
  .field public !0[][] rows
  .field public int32 columns
  .method public specialname rtspecialname instance void .ctor(int32, int32) cil managed {
    .maxstack 3
    .locals init (int32 row)
    ldarg.0  call instance void [mscorlib]System.Object::.ctor()
    ldarg.0  ldarg.2  stfld int32 class Importer.Rectangle`1<!0>::columns
    ldarg.0  ldarg.1  newarr !0[]  stfld !0[][] class Importer.Rectangle`1<!0>::rows
    br TEST
    NEXT: ldarg.0  ldfld !0[][] class Importer.Rectangle`1<!0>::rows  ldloc.0  ldarg.2  newarr !0  stelem.ref
    ldloc.0  ldc.i4.1  add  stloc.0
    TEST: ldloc.0  ldarg.1  blt NEXT
    ret
  }
  .method public instance !0 Get(int32, int32) cil managed {
    .maxstack 2
    ldarg.0  ldfld !0[][] class Importer.Rectangle`1<!0>::rows  ldarg.1  ldelem.ref  ldarg.2  ldelem !0  ret
  }
  .method public instance void Set(int32, int32, !0) cil managed {
    .maxstack 3
    ldarg.0  ldfld !0[][] class Importer.Rectangle`1<!0>::rows  ldarg.1  ldelem.ref  ldarg.2  ldarg.3  stelem !0  ret
  }
  .method public instance int32 GetLength(int32) cil managed {
    .maxstack 2
    ldarg.1  switch (ROWS, COLUMNS)
    ldc.i4.0  newarr int32  ldarg.1  ldelem.i4  ret
    ROWS: ldarg.0  ldfld !0[][] class Importer.Rectangle`1<!0>::rows  ldlen  conv.i4  ret
    COLUMNS: ldarg.0  ldfld int32 class Importer.Rectangle`1<!0>::columns  ret
  }
  .method public instance int32 get_Length() cil managed {
    .maxstack 2
    ldarg.0  ldfld !0[][] class Importer.Rectangle`1<!0>::rows  ldlen  conv.i4
    ldarg.0  ldfld int32 class Importer.Rectangle`1<!0>::columns  mul  ret
  }
}

// Elements are copied from the end that keeps those of one array that are still to be copied.
.class public auto ansi Importer.Copying`1<T> extends [mscorlib]System.Object {
  .method public static void Copy(!0[], !0[], int32) cil managed {
    .maxstack 5
    ldarg.0  ldc.i4.0  ldarg.1  ldc.i4.0  ldarg.2  call void class Importer.Copying`1<!0>::Copy(!0[], int32, !0[], int32, int32)  ret
  }
  .method public static void Copy(!0[], int32, !0[], int32, int32) cil managed {
    .maxstack 4
    .locals init (int32 index)
    ldarg.1  ldarg.3  blt DOWN
    br UPTEST
    UP: ldarg.2  ldarg.3  ldloc.0  add  ldarg.0  ldarg.1  ldloc.0  add  ldelem !0  stelem !0
    ldloc.0  ldc.i4.1  add  stloc.0
    UPTEST: ldloc.0  ldarg.s 4  blt UP
    ret
    DOWN: ldarg.s 4  stloc.0
    br DOWNTEST
    NEXT: ldloc.0  ldc.i4.1  sub  stloc.0
    ldarg.2  ldarg.3  ldloc.0  add  ldarg.0  ldarg.1  ldloc.0  add  ldelem !0  stelem !0
    DOWNTEST: ldloc.0  ldc.i4.0  bgt NEXT
    ret
  }
}

.class public auto ansi Importer.Object extends [mscorlib]System.Object {
  .method public specialname rtspecialname instance void .ctor() cil managed {
    .maxstack 1
    ldarg.0  call instance void [mscorlib]System.Object::.ctor()  ret
  }
  .method public newslot virtual instance bool Equals(object) cil managed {
    .maxstack 2
    ldarg.0  ldarg.1  ceq  ret
  }
  .method public newslot virtual instance int32 GetHashCode() cil managed {
    .maxstack 1
    ldc.i4.0  ret
  }
  .method public static bool AreEqual(object, object) cil managed {
    .maxstack 2
    ldarg.0  isinst Importer.Object  brfalse OTHER
    ldarg.0  castclass Importer.Object  ldarg.1  callvirt instance bool Importer.Object::Equals(object)  ret
    OTHER: ldarg.0  brfalse FAULT
    ldarg.0  ldarg.1  ceq  ret
    FAULT: ldnull  castclass Importer.Object  ldarg.1  callvirt instance bool Importer.Object::Equals(object)  ret
  }
  .method public static int32 HashOf(object) cil managed {
    .maxstack 1
    ldarg.0  brfalse FAULT
    ldarg.0  isinst Importer.Object  brtrue OWN
    ldc.i4.0  ret
    OWN: FAULT: ldarg.0  castclass Importer.Object  callvirt instance int32 Importer.Object::GetHashCode()  ret
  }
}

.class public sequential ansi sealed System.Nullable`1<T> extends [mscorlib]System.ValueType {
  .field public bool has
  .field public !0 'value'
  .method public specialname rtspecialname instance void .ctor(!0) cil managed {
    .maxstack 2
    ldarg.0  ldc.i4.1  stfld bool class System.Nullable`1<!0>::has
    ldarg.0  ldarg.1  stfld !0 class System.Nullable`1<!0>::'value'  ret
  }
  .method public instance bool get_HasValue() cil managed {
    .maxstack 1
    ldarg.0  ldfld bool class System.Nullable`1<!0>::has  ret
  }
  .method public instance !0 get_Value() cil managed {
    .maxstack 1
    ldarg.0  ldfld bool class System.Nullable`1<!0>::has  brtrue HAS
    ldnull  castclass class Importer.Box`1<!0>  ldfld !0 class Importer.Box`1<!0>::'value'  ret
    HAS: ldarg.0  ldfld !0 class System.Nullable`1<!0>::'value'  ret
  }
  .method public instance !0 GetValueOrDefault() cil managed {
    .maxstack 1
    ldarg.0  ldfld !0 class System.Nullable`1<!0>::'value'  ret
  }
  .method public instance !0 GetValueOrDefault(!0) cil managed {
    .maxstack 1
    ldarg.0  ldfld bool class System.Nullable`1<!0>::has  brtrue HAS
    ldarg.1  ret
    HAS: ldarg.0  ldfld !0 class System.Nullable`1<!0>::'value'  ret
  }
}

// All strings are literals, and equal literals are one object.
.class public auto ansi System.String extends [mscorlib]System.Object {
  .method public static bool op_Equality(string, string) cil managed {
    .maxstack 2
    ldarg.0  ldarg.1  ceq  ret
  }
  .method public static bool op_Inequality(string, string) cil managed {
    .maxstack 2
    ldarg.0  ldarg.1  ceq  ldc.i4.0  ceq  ret
  }
  .method public static bool Equals(string, string) cil managed {
    .maxstack 2
    ldarg.0  ldarg.1  ceq  ret
  }
  .method public static bool IsNullOrEmpty(string) cil managed {
    .maxstack 2
    ldarg.0  brfalse YES
    ldarg.0  ldstr ""  ceq  ret
    YES: ldc.i4.1  ret
  }
}
