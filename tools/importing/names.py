"""Names of the profile for those of a listing: letters, digits, `_` and single dots, no reserved word, different names for different ones."""

import re

from .types import Array, Class, Primitive, Type

PLAIN_INSTRUCTIONS = frozenset(
    "nop ldnull dup pop add sub mul div rem and or xor add.ovf sub.ovf mul.ovf neg not shl shr shr.un ceq cgt clt conv.i4 conv.i8 ldlen "
    "ldelem.i4 ldelem.i8 ldelem.ref stelem.i4 stelem.i8 stelem.ref ret".split()
)
BRANCHES = frozenset("br brtrue brfalse beq bne.un bge bgt ble blt".split())
OPERAND_INSTRUCTIONS = frozenset(
    "ldc.i4 ldc.i8 ldstr ldarg starg ldloc stloc switch ldfld stfld ldsfld stsfld newarr castclass isinst call callvirt newobj".split()
)
PROFILE_INSTRUCTIONS = PLAIN_INSTRUCTIONS | BRANCHES | OPERAND_INSTRUCTIONS
_NUMBERED = [f"{name}.{number}" for name in ("ldarg", "ldloc", "stloc") for number in range(4)]
_NUMBERED += [f"ldc.i4.{number}" for number in (*range(9), "m1")]
RESERVED = PROFILE_INSTRUCTIONS | frozenset(_NUMBERED) | frozenset(
    "extern class interface public abstract auto ansi extends implements static int32 int64 object string void hidebysig instance newslot "
    "virtual specialname rtspecialname cil managed init".split()
)
_NAME = re.compile(r"[A-Za-z_][A-Za-z0-9_]*(\.[A-Za-z_][A-Za-z0-9_]*)*")


def is_name(text: str) -> bool:
    """Whether a text is a name of the profile as it is."""
    return _NAME.fullmatch(text) is not None and text not in RESERVED


class Names:
    """One name of the profile for each of a kind of names, always the same."""

    def __init__(self) -> None:
        self._names: dict[str, str] = {}
        self._used: set[str] = set()
        self.changed = 0

    def reserve(self, text: str) -> None:
        """Keeps a name that is one of the profile for itself."""
        if is_name(text):
            self._names.setdefault(text, text)
            self._used.add(text)

    def of(self, text: str) -> str:
        """Returns the name for this text."""
        if text not in self._names:
            made = text if is_name(text) else _spell(text)
            self.changed += made != text
            self._names[text] = self._unused_name(made)
            self._used.add(self._names[text])
        return self._names[text]

    def _unused_name(self, made: str) -> str:
        number, found = 2, made
        while found in self._used:
            found = f"{made}_{number}"
            number += 1
        return found


def _spell(text: str) -> str:
    """Returns a name made of the letters and digits of a text."""
    parts = [re.sub(r"[^A-Za-z0-9]+", "_", part).strip("_") for part in text.split(".")]
    parts = [part if part[:1].isalpha() else f"_{part}" for part in parts if part]
    made = ".".join(parts) or "_"
    return f"{made}_" if made in RESERVED else made


def class_text(kind: Type) -> str:
    """Returns what distinguishes a class from others: its name, with the arguments of an instance and without the count of its parameters."""
    if isinstance(kind, Array):
        return f"{class_text(kind.element)}.Array" if kind.rank == 1 else f"{class_text(kind.element)}.Array{kind.rank}"
    if isinstance(kind, Primitive) or not isinstance(kind, Class):
        return str(kind)
    name = re.sub(r"`\d+", "", kind.name).replace("/", "_")
    return f"{name}_{'_'.join(map(class_text, kind.arguments))}" if kind.arguments else name


