// Three clerks move money round a ring of accounts. Each locks the account that it takes from, and then the next one.
// While a cycle of the collector is open each holds its first account and waits for the next: a deadlock. Main waits for the end of the first clerk.
// Run: ./cilvm picture ring.il ring.schedule > ring.svg
.assembly extern mscorlib {}
.assembly extern cilvm {}
.assembly ring {}

.class public auto ansi Account extends [mscorlib]System.Object {
  .field public int32 balance
  .method public specialname rtspecialname instance void .ctor() cil managed {
    .maxstack 1
    ldarg.0  call instance void [mscorlib]System.Object::.ctor()  ret
  }
}

.class public auto ansi Clerk extends [cilvm]Cilvm.Thread {
  .field public class Account from
  .field public class Account to
  .method public specialname rtspecialname instance void .ctor(class Account from, class Account to) cil managed {
    .maxstack 2
    ldarg.0  call instance void [cilvm]Cilvm.Thread::.ctor()
    ldarg.0  ldarg.1  stfld class Account Clerk::from
    ldarg.0  ldarg.2  stfld class Account Clerk::to
    ret
  }
  .method public virtual instance void Run() cil managed {
    .maxstack 3
    NEXT:
    ldarg.0  ldfld class Account Clerk::from  call void [mscorlib]System.Threading.Monitor::Enter(object)
    ldarg.0  ldfld class Account Clerk::to  call void [mscorlib]System.Threading.Monitor::Enter(object)
    ldarg.0  ldfld class Account Clerk::from  dup  ldfld int32 Account::balance  ldc.i4.1  sub  stfld int32 Account::balance
    ldarg.0  ldfld class Account Clerk::to  dup  ldfld int32 Account::balance  ldc.i4.1  add  stfld int32 Account::balance
    ldarg.0  ldfld class Account Clerk::to  call void [mscorlib]System.Threading.Monitor::Exit(object)
    ldarg.0  ldfld class Account Clerk::from  call void [mscorlib]System.Threading.Monitor::Exit(object)
    br NEXT
  }
}

.class public auto ansi Bank extends [mscorlib]System.Object {
  .method public static void Main() cil managed {
    .entrypoint
    .maxstack 2
    .locals init (class Account a, class Account b, class Account c, class Clerk first)
    newobj instance void Account::.ctor()  stloc.0
    newobj instance void Account::.ctor()  stloc.1
    newobj instance void Account::.ctor()  stloc.2
    ldloc.0  ldloc.1  newobj instance void Clerk::.ctor(class Account, class Account)  dup  stloc.3
    callvirt instance void [cilvm]Cilvm.Thread::Start()
    ldloc.1  ldloc.2  newobj instance void Clerk::.ctor(class Account, class Account)
    callvirt instance void [cilvm]Cilvm.Thread::Start()
    ldloc.2  ldloc.0  newobj instance void Clerk::.ctor(class Account, class Account)
    callvirt instance void [cilvm]Cilvm.Thread::Start()
    ldloc.3  callvirt instance void [cilvm]Cilvm.Thread::Join()
    ret
  }
}
