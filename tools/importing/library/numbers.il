// System.Math, conversions with a test of the range, and division of unsigned numbers of 64 bits.
.class public auto ansi System.Math extends [mscorlib]System.Object {
  .method public static int32 Max(int32, int32) cil managed {
    .maxstack 2
    ldarg.0  ldarg.1  bgt FIRST  ldarg.1  ret
    FIRST: ldarg.0  ret
  }
  .method public static int64 Max(int64, int64) cil managed {
    .maxstack 2
    ldarg.0  ldarg.1  bgt FIRST  ldarg.1  ret
    FIRST: ldarg.0  ret
  }
  .method public static int32 Min(int32, int32) cil managed {
    .maxstack 2
    ldarg.0  ldarg.1  blt FIRST  ldarg.1  ret
    FIRST: ldarg.0  ret
  }
  .method public static int64 Min(int64, int64) cil managed {
    .maxstack 2
    ldarg.0  ldarg.1  blt FIRST  ldarg.1  ret
    FIRST: ldarg.0  ret
  }
  .method public static int32 Abs(int32) cil managed {
    .maxstack 2
    ldarg.0  ldc.i4.0  blt NEGATIVE  ldarg.0  ret
    NEGATIVE: ldc.i4.0  ldarg.0  sub.ovf  ret
  }
  .method public static int64 Abs(int64) cil managed {
    .maxstack 2
    ldarg.0  ldc.i8 0  blt NEGATIVE  ldarg.0  ret
    NEGATIVE: ldc.i8 0  ldarg.0  sub.ovf  ret
  }
  .method public static int32 Sign(int32) cil managed {
    .maxstack 3
    ldarg.0  ldc.i4.0  cgt  ldarg.0  ldc.i4.0  clt  sub  ret
  }
  .method public static int32 Sign(int64) cil managed {
    .maxstack 3
    ldarg.0  ldc.i8 0  cgt  ldarg.0  ldc.i8 0  clt  sub  ret
  }
}

.class public auto ansi Importer.Conversions extends [mscorlib]System.Object {
  // The first number; OverflowException unless it is from the second to the third.
  .method public static int64 InRange(int64, int64, int64) cil managed {
    .maxstack 2
    ldarg.0  ldarg.1  blt OUTSIDE
    ldarg.0  ldarg.2  bgt OUTSIDE
    ldarg.0  ret
    OUTSIDE: ldc.i8 9223372036854775807  ldc.i8 1  add.ovf  ret
  }
}

.class public auto ansi Importer.Unsigned extends [mscorlib]System.Object {
  // The quotient of half the dividend, twice, is the quotient or one less. A divisor above the greatest int64 goes in once or not at all.
  .method public static int64 Divide(int64, int64) cil managed {
    .maxstack 3
    .locals init (int64 quotient)
    ldarg.1  ldc.i8 0  blt LARGE
    ldarg.0  ldc.i4.1  shr.un  ldarg.1  div  ldc.i4.1  shl  stloc.0
    ldloc.0
    ldarg.0  ldloc.0  ldarg.1  mul  sub  ldarg.1  clt.un  ldc.i4.0  ceq  conv.i8
    add  ret
    LARGE: ldarg.0  ldarg.1  clt.un  ldc.i4.0  ceq  conv.i8  ret
  }
  .method public static int64 Remainder(int64, int64) cil managed {
    .maxstack 4
    ldarg.0  ldarg.0  ldarg.1  call int64 Importer.Unsigned::Divide(int64, int64)  ldarg.1  mul  sub  ret
  }
}
