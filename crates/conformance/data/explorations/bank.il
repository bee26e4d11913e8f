// Two threads move 10 between two accounts, in opposite directions, without a lock. The sum may be 190 or 210.
// Run: ./cilvm explore crates/conformance/data/explorations/bank.il
.assembly extern mscorlib {}
.assembly extern cilvm {} .assembly bank {}

.class public auto ansi Account extends [mscorlib]System.Object
{
    .field public int32 balance

    .method public specialname rtspecialname instance void .ctor(int32 balance) cil managed
    {
        .maxstack 2
        ldarg.0
        call instance void [mscorlib]System.Object::.ctor()
        ldarg.0
        ldarg.1
        stfld int32 Account::balance
        ret
    }
}

.class public auto ansi Forth extends [cilvm]Cilvm.Thread
{
    .method public specialname rtspecialname instance void .ctor() cil managed
    {
        .maxstack 1
        ldarg.0
        call instance void [cilvm]Cilvm.Thread::.ctor()
        ret
    }

    .method public virtual instance void Run() cil managed
    {
        .maxstack 3
        ldsfld class Account Program::first
        ldsfld class Account Program::second
        ldc.i4 10
        call void Program::Move(class Account, class Account, int32)
        ret
    }
}

.class public auto ansi Back extends [cilvm]Cilvm.Thread
{
    .method public specialname rtspecialname instance void .ctor() cil managed
    {
        .maxstack 1
        ldarg.0
        call instance void [cilvm]Cilvm.Thread::.ctor()
        ret
    }

    .method public virtual instance void Run() cil managed
    {
        .maxstack 3
        ldsfld class Account Program::second
        ldsfld class Account Program::first
        ldc.i4 10
        call void Program::Move(class Account, class Account, int32)
        ret
    }
}

.class public auto ansi Program extends [mscorlib]System.Object
{
    .field public static class Account first
    .field public static class Account second

    .method public static void Add(class Account account, int32 amount) cil managed
    {
        .maxstack 3
        ldarg.0
        ldarg.0
        ldfld int32 Account::balance
        ldarg.1
        add
        stfld int32 Account::balance
        ret
    }

    .method public static void Move(class Account source, class Account target, int32 amount) cil managed
    {
        .maxstack 2
        ldarg.0
        ldarg.2
        neg
        call void Program::Add(class Account, int32)
        ldarg.1
        ldarg.2
        call void Program::Add(class Account, int32)
        ret
    }

    .method public static void Main() cil managed
    {
        .entrypoint
        .maxstack 2
        .locals init (class Forth forth, class Back back)

        ldc.i4 100
        newobj instance void Account::.ctor(int32)
        stsfld class Account Program::first
        ldc.i4 100
        newobj instance void Account::.ctor(int32)
        stsfld class Account Program::second

        newobj instance void Forth::.ctor()
        stloc.0
        newobj instance void Back::.ctor()
        stloc.1
        ldloc.0
        callvirt instance void [cilvm]Cilvm.Thread::Start()
        ldloc.1
        callvirt instance void [cilvm]Cilvm.Thread::Start()
        ldloc.0
        callvirt instance void [cilvm]Cilvm.Thread::Join()
        ldloc.1
        callvirt instance void [cilvm]Cilvm.Thread::Join()

        ldsfld class Account Program::first
        ldfld int32 Account::balance
        ldsfld class Account Program::second
        ldfld int32 Account::balance
        add
        call void [mscorlib]System.Console::WriteLine(int32)
        ret
    }
}
