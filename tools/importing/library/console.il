// Console.WriteLine of what the profile's own does not print.
.class public auto ansi System.Console extends [mscorlib]System.Object {
  .method public static void WriteLine() cil managed {
    .maxstack 1
    ldstr ""  call void [mscorlib]System.Console::WriteLine(string)  ret
  }
  .method public static void WriteLine(bool) cil managed {
    .maxstack 1
    ldarg.0  brfalse NO
    ldstr "True"  call void [mscorlib]System.Console::WriteLine(string)  ret
    NO: ldstr "False"  call void [mscorlib]System.Console::WriteLine(string)  ret
  }
  .method public static void WriteLine(uint32) cil managed {
    .maxstack 2
    ldarg.0  conv.u8  call void [mscorlib]System.Console::WriteLine(int64)  ret
  }
  // There is no way to print a number above the greatest int64.
  .method public static void WriteLine(uint64) cil managed {
    .maxstack 2
    ldarg.0  ldc.i8 0  blt LARGE
    ldarg.0  conv.i8  call void [mscorlib]System.Console::WriteLine(int64)  ret
    LARGE: ldc.i8 9223372036854775807  ldc.i8 1  add.ovf  pop  ret
  }
  .method public static void WriteLine(char) cil managed {
    .maxstack 2
    ldarg.0  ldc.i4.s 32  sub
    switch (C32, C33, C34, C35, C36, C37, C38, C39, C40, C41, C42, C43, C44, C45, C46, C47, C48, C49, C50, C51, C52, C53, C54, C55,
      C56, C57, C58, C59, C60, C61, C62, C63, C64, C65, C66, C67, C68, C69, C70, C71, C72, C73, C74, C75, C76, C77, C78, C79,
      C80, C81, C82, C83, C84, C85, C86, C87, C88, C89, C90, C91, C92, C93, C94, C95, C96, C97, C98, C99, C100, C101, C102, C103,
      C104, C105, C106, C107, C108, C109, C110, C111, C112, C113, C114, C115, C116, C117, C118, C119, C120, C121, C122, C123, C124,
      C125, C126)
    ldstr "?"  br OUT
    C32: ldstr " "  br OUT  C33: ldstr "!"  br OUT  C34: ldstr "\""  br OUT  C35: ldstr "#"  br OUT
    C36: ldstr "$"  br OUT  C37: ldstr "%"  br OUT  C38: ldstr "&"  br OUT  C39: ldstr "'"  br OUT
    C40: ldstr "("  br OUT  C41: ldstr ")"  br OUT  C42: ldstr "*"  br OUT  C43: ldstr "+"  br OUT
    C44: ldstr ","  br OUT  C45: ldstr "-"  br OUT  C46: ldstr "."  br OUT  C47: ldstr "/"  br OUT
    C48: ldstr "0"  br OUT  C49: ldstr "1"  br OUT  C50: ldstr "2"  br OUT  C51: ldstr "3"  br OUT
    C52: ldstr "4"  br OUT  C53: ldstr "5"  br OUT  C54: ldstr "6"  br OUT  C55: ldstr "7"  br OUT
    C56: ldstr "8"  br OUT  C57: ldstr "9"  br OUT  C58: ldstr ":"  br OUT  C59: ldstr ";"  br OUT
    C60: ldstr "<"  br OUT  C61: ldstr "="  br OUT  C62: ldstr ">"  br OUT  C63: ldstr "?"  br OUT
    C64: ldstr "@"  br OUT  C65: ldstr "A"  br OUT  C66: ldstr "B"  br OUT  C67: ldstr "C"  br OUT
    C68: ldstr "D"  br OUT  C69: ldstr "E"  br OUT  C70: ldstr "F"  br OUT  C71: ldstr "G"  br OUT
    C72: ldstr "H"  br OUT  C73: ldstr "I"  br OUT  C74: ldstr "J"  br OUT  C75: ldstr "K"  br OUT
    C76: ldstr "L"  br OUT  C77: ldstr "M"  br OUT  C78: ldstr "N"  br OUT  C79: ldstr "O"  br OUT
    C80: ldstr "P"  br OUT  C81: ldstr "Q"  br OUT  C82: ldstr "R"  br OUT  C83: ldstr "S"  br OUT
    C84: ldstr "T"  br OUT  C85: ldstr "U"  br OUT  C86: ldstr "V"  br OUT  C87: ldstr "W"  br OUT
    C88: ldstr "X"  br OUT  C89: ldstr "Y"  br OUT  C90: ldstr "Z"  br OUT  C91: ldstr "["  br OUT
    C92: ldstr "\\"  br OUT  C93: ldstr "]"  br OUT  C94: ldstr "^"  br OUT  C95: ldstr "_"  br OUT
    C96: ldstr "`"  br OUT  C97: ldstr "a"  br OUT  C98: ldstr "b"  br OUT  C99: ldstr "c"  br OUT
    C100: ldstr "d"  br OUT  C101: ldstr "e"  br OUT  C102: ldstr "f"  br OUT  C103: ldstr "g"  br OUT
    C104: ldstr "h"  br OUT  C105: ldstr "i"  br OUT  C106: ldstr "j"  br OUT  C107: ldstr "k"  br OUT
    C108: ldstr "l"  br OUT  C109: ldstr "m"  br OUT  C110: ldstr "n"  br OUT  C111: ldstr "o"  br OUT
    C112: ldstr "p"  br OUT  C113: ldstr "q"  br OUT  C114: ldstr "r"  br OUT  C115: ldstr "s"  br OUT
    C116: ldstr "t"  br OUT  C117: ldstr "u"  br OUT  C118: ldstr "v"  br OUT  C119: ldstr "w"  br OUT
    C120: ldstr "x"  br OUT  C121: ldstr "y"  br OUT  C122: ldstr "z"  br OUT  C123: ldstr "{"  br OUT
    C124: ldstr "|"  br OUT  C125: ldstr "}"  br OUT  C126: ldstr "~"  br OUT
    OUT: call void [mscorlib]System.Console::WriteLine(string)  ret
  }
}
