"""What to write in C# instead of what has no counterpart."""

from dataclasses import replace

from .types import Class, FieldRef, MethodRef, Type

_OTHERWISE = "write a class of your own for it"

# The beginning of a member's or class's name, and what to write instead. The first that fits counts.
_MEMBERS = [
    ("string.Concat", "print the parts by a `Console.WriteLine` each"),
    ("string.Format", "print the parts by a `Console.WriteLine` each"),
    ("string.Join", "print the parts by a `Console.WriteLine` each"),
    ("string.get_Length", "keep the length in a variable; a string can be printed and compared only"),
    ("string.get_Chars", "keep the characters in a `char[]`; a string can be printed and compared only"),
    ("string.", "a string can be printed and compared only; keep characters in a `char[]`"),
    ("System.Text.", "print the parts by a `Console.WriteLine` each"),
    ("System.Console.Write(", "write `Console.WriteLine`, which ends the line"),
    ("System.Console.WriteLine(string,", "print each value by a `Console.WriteLine` of its own"),
    ("System.Console.WriteLine(float", "compute with `int` or `long`, and scale"),
    ("System.Console.WriteLine", "print an integer, a string, a `bool` or a `char`"),
    ("System.Console.Read", "write the input into the program as an array"),
    ("System.Console.", "use `Console.WriteLine` alone"),
    ("System.Threading.Thread.get_CurrentThread", "hand the thread's number to its method"),
    ("System.Threading.Thread.", "use `new Thread(M)`, `Start` and `Join` alone"),
    ("System.Threading.Tasks.", "write `new Thread(M)`, `Start` and `Join`"),
    ("System.Threading.", "write `lock`, `Monitor.Wait` and `Monitor.PulseAll`"),
    ("System.Math.", "write the computation with `int` or `long`"),
    ("System.Array.", "write a loop over the elements"),
    ("System.Random", "write a generator of your own: `seed = (seed * 75 + 74) % 65537`"),
    ("System.Linq.", "write a loop"),
    ("System.Collections.Generic.List", "use `Add`, `Count`, the indexer, `RemoveAt`, `Clear` and `foreach`"),
    ("System.Collections.Generic.Dictionary", "use `Add`, `ContainsKey`, `TryGetValue`, `Count` and the indexer"),
    ("System.Collections.", "use `List<T>`, `Queue<T>`, `Stack<T>` or an array"),
    ("System.Environment.", "leave it out: a program has no arguments and no surroundings"),
    ("System.Diagnostics.", "leave it out: a program can't measure its time"),
    ("System.DateTime", "leave it out: a program can't measure its time"),
    ("System.Delegate.", "keep the delegates in a list and call each"),
    ("System.IO.", "write the input into the program as an array"),
    ("System.Exception", "return a value that reports the failure: a fault ends its thread"),
]
_CONVERSIONS = {
    ".ToString": "print the value itself by `Console.WriteLine`",
    ".GetType": "write a virtual method that returns the class",
    ".Parse": "write the number into the program",
    ".CompareTo": "write `<` and `>`",
    "Exception..ctor": "return a value that reports the failure: a fault ends its thread",
}

# What a member of the importer's library means beyond .NET's, by the beginning of its name.
_MEANINGS = {
    "System.Threading.Thread..ctor(": "`new Thread(M)`: an object of a class that extends `Cilvm.Thread`",
    "System.Threading.Thread.Sleep(": "`Thread.Sleep`: does not wait",
    "System.Threading.Thread.Yield(": "`Thread.Yield`: does nothing",
    "System.Threading.Monitor.Wait(": "`Monitor.Wait`: exits and enters the monitor, so the loop around it spins",
    "System.Threading.Monitor.Pulse": "`Monitor.Pulse`: does nothing, since a thread that waits spins",
    "System.Threading.Interlocked.": "`Interlocked`: under one monitor; a plain store to the variable meanwhile is lost",
    "System.Console.WriteLine(uint64)": "`WriteLine(ulong)`: OverflowException above 9223372036854775807",
    "System.Collections.Generic.Dictionary`2..ctor": "`Dictionary`: a look-up reads the keys one by one, and compares references",
}


def meaning(wanted: MethodRef) -> tuple[str, str] | None:
    """Returns what a call of the importer's library means beyond .NET's, with its kind; None if it means the same."""
    name = str(replace(wanted, owner=Class(None, wanted.owner.name))) if isinstance(wanted.owner, Class) else ""
    for beginning, text in _MEANINGS.items():
        if name.startswith(beginning):
            return text.partition(":")[0], text
    return None


def for_member(wanted: MethodRef | FieldRef) -> str:
    """Returns what to write instead of a member of a library."""
    name = str(wanted)
    for beginning, remedy in _MEMBERS:
        if name.startswith(beginning) and not name.endswith((".ToString()", ".GetType()")):
            return remedy
    return next((remedy for part, remedy in _CONVERSIONS.items() if part in name), _OTHERWISE)


def for_class(wanted: Type) -> str:
    """Returns what to write instead of a class of a library."""
    name = str(wanted)
    if name.startswith("System.") and "Exception" in name:
        return _CONVERSIONS["Exception..ctor"]
    return next((remedy for beginning, remedy in _MEMBERS if name.startswith(beginning.rstrip("."))), _OTHERWISE)
