.assembly extern mscorlib {}
.class public auto ansi Box extends [mscorlib]System.Object {
 .field public int32 number
 .field public int64 wide
 .field public string text
 .field public class Box next
 .field public int32[] numbers
 .field public object any
 .method public specialname rtspecialname instance void .ctor() cil managed {
  .maxstack 1
  ldarg.0  call instance void [mscorlib]System.Object::.ctor()  ret
 }
 .method public instance int32 Number() cil managed {
  .maxstack 1
  ldarg.0  ldfld int32 Box::number  ret
 }
 .method public newslot virtual instance int64 Wide() cil managed {
  .maxstack 1
  ldarg.0  ldfld int64 Box::wide  ret
 }
}
.class public auto ansi P extends [mscorlib]System.Object {
 .method public static void Main() cil managed {
  .entrypoint
  .maxstack 2
  .locals init (class Box box)
  newobj instance void Box::.ctor()  stloc.0
  ldloc.0  ldfld int32 Box::number  call void [mscorlib]System.Console::WriteLine(int32)
  ldloc.0  ldfld int64 Box::wide  call void [mscorlib]System.Console::WriteLine(int64)
  ldloc.0  ldfld string Box::text  call void [mscorlib]System.Console::WriteLine(string)
  ldloc.0  ldfld class Box Box::next  ldnull  ceq  call void [mscorlib]System.Console::WriteLine(int32)
  ldloc.0  ldfld int32[] Box::numbers  ldnull  ceq  call void [mscorlib]System.Console::WriteLine(int32)
  ldloc.0  ldfld object Box::any  ldnull  ceq  call void [mscorlib]System.Console::WriteLine(int32)
  ldloc.0  ldc.i4 -7  stfld int32 Box::number
  ldloc.0  ldfld int32 Box::number  call void [mscorlib]System.Console::WriteLine(int32)
  ldloc.0  ldc.i8 9000000000  stfld int64 Box::wide
  ldloc.0  ldfld int64 Box::wide  call void [mscorlib]System.Console::WriteLine(int64)
  ldloc.0  ldstr "text"  stfld string Box::text
  ldloc.0  ldfld string Box::text  call void [mscorlib]System.Console::WriteLine(string)
  ldloc.0  ldloc.0  stfld class Box Box::next
  ldloc.0  ldfld class Box Box::next  ldnull  ceq  call void [mscorlib]System.Console::WriteLine(int32)
  ldloc.0  ldc.i4.2  newarr int32  stfld int32[] Box::numbers
  ldloc.0  ldfld int32[] Box::numbers  ldnull  ceq  call void [mscorlib]System.Console::WriteLine(int32)
  ldloc.0  ldstr "any"  stfld object Box::any
  ldloc.0  ldfld object Box::any  ldnull  ceq  call void [mscorlib]System.Console::WriteLine(int32)
  ldloc.0  ldfld class Box Box::next  ldfld int32 Box::number  call void [mscorlib]System.Console::WriteLine(int32)
  ldloc.0  ldfld int32[] Box::numbers  ldlen  conv.i4  call void [mscorlib]System.Console::WriteLine(int32)
  ldloc.0  ldfld object Box::any  castclass string  call void [mscorlib]System.Console::WriteLine(string)
  newobj instance void Box::.ctor()  stloc.0
  ldloc.0  ldfld int32 Box::number  call void [mscorlib]System.Console::WriteLine(int32)
  ret
 }
}
