"""The types on the stack before each instruction of a method of a listing (ECMA-335 III.1.5, III.1.8).

Each value also has the instructions that may have pushed it, so that a rewriting can act where a value is made. Addresses of variables,
fields and elements are types of their own: they say what they are addresses of.
"""

from dataclasses import dataclass

from .program import Program
from .report import ListingError
from .tree import ClassDef, Instruction, Method
from .types import (
    BOOL, INT32, INT64, NATIVE, OBJECT, STRING, VOID, Array, FieldRef, MethodRef, Pointer, Primitive, Type,
)

NULL = Primitive("null")
_ENDS = frozenset(("br", "ret", "throw", "rethrow", "leave", "jmp"))
_FLOAT = Primitive("float64")


@dataclass(frozen=True)
class Address(Type):
    """The address of a variable, field or element that no call has been given: its kind (`local`, `argument`, `field`, `static`,
    `element`), the type of what is there, and its number or field."""

    kind: str
    target: Type
    detail: object = None


@dataclass(frozen=True)
class Function(Type):
    """A method that a delegate is to be made of."""

    method: MethodRef
    is_virtual: bool


@dataclass(frozen=True)
class Data(Type):
    """The field with the initial bytes of an array."""

    field: FieldRef


@dataclass(frozen=True)
class Entry:
    """A value on the stack: its type, the numbers of the instructions that may have pushed it, and its value if that is a constant."""

    type: Type
    producers: frozenset[int]
    constant: int | None = None


Stack = tuple[Entry, ...]

_BINARY = frozenset(
    "add sub mul div rem and or xor add.ovf sub.ovf mul.ovf add.ovf.un sub.ovf.un mul.ovf.un div.un rem.un".split()
)
_SHIFTS = frozenset(("shl", "shr", "shr.un"))
_COMPARES = frozenset(("ceq", "cgt", "clt", "cgt.un", "clt.un"))
_BRANCHES_OF_TWO = frozenset("beq bne.un bge bgt ble blt bge.un bgt.un ble.un blt.un".split())
_NONE = frozenset("nop br leave endfinally volatile. tail. readonly. unaligned. constrained. break rethrow jmp".split())
_INDIRECT = {
    "i1": Primitive("int8"), "u1": Primitive("uint8"), "i2": Primitive("int16"), "u2": Primitive("uint16"), "i4": INT32,
    "u4": Primitive("uint32"), "i8": INT64, "u8": Primitive("uint64"), "i": NATIVE, "u": NATIVE, "r4": _FLOAT, "r8": _FLOAT,
}


def conversion_target(op: str) -> Type:
    """Returns the type that `conv.X`, `conv.ovf.X` or `conv.ovf.X.un` pushes."""
    return _INDIRECT.get(op.removeprefix("conv.").removeprefix("ovf.").removesuffix(".un"), _FLOAT)


class Analysis:
    """The stack types of a method. `stacks[i]` is the stack before instruction i, None where control never arrives.

    `shared` has the variables (`("local", n)`, `("argument", n)`) and the instructions (`("at", i)`) whose addresses are given away;
    `loaded` the instructions that load what is at an address, since `constrained.` calls a method of it."""

    def __init__(self, program: Program, owner: ClassDef, method: Method):
        self.program = program
        self.owner = owner
        self.method = method
        self.code: list[Instruction] = method.code
        self.labels = {label: index for index, part in enumerate(self.code) for label in part.labels}
        self.shared: set[tuple] = set()
        self.loaded: set[int] = set()
        self.stacks: list[Stack | None] = []
        self.height = 0
        before = -1
        while before != len(self.shared) + len(self.loaded):
            before = len(self.shared) + len(self.loaded)
            self._run()

    def _run(self) -> None:
        self.stacks = [None] * len(self.code)
        pending = [0] if self.code else []
        if self.code:
            self.stacks[0] = ()
        while pending:
            index = pending.pop()
            after = self._effect(index, self.stacks[index] or ())
            for target in self._targets(index):
                if self._reach(target, after, self.code[index].line):
                    pending.append(target)

    def _targets(self, index: int) -> list[int]:
        part = self.code[index]
        found = [] if part.op in _ENDS else [index + 1]
        if part.op == "switch":
            found += [self._label(label, part.line) for label in part.operand]
        elif part.op in ("leave", "br", "brtrue", "brfalse") or part.op in _BRANCHES_OF_TWO:
            found.append(self._label(part.operand, part.line))
        return found

    def _label(self, label: object, line: int) -> int:
        if label not in self.labels:
            raise ListingError(line, f"no instruction has the label `{label}`")
        return self.labels[label]

    def _reach(self, index: int, stack: Stack, line: int) -> bool:
        """Records that control arrives with this stack; says whether that is news."""
        if index >= len(self.code):
            raise ListingError(line, "the code continues after its end")
        known = self.stacks[index]
        if known is None:
            self.stacks[index] = stack
            return True
        if len(known) != len(stack):
            raise ListingError(self.code[index].line, "paths meet with stacks of different heights")
        merged = tuple(map(self._merge, known, stack))
        self.stacks[index] = merged
        return merged != known

    def _merge(self, one: Entry, other: Entry) -> Entry:
        producers = one.producers | other.producers
        constant = one.constant if one.constant == other.constant else None
        return Entry(self._merged_type(one, other), producers, constant)

    def _merged_type(self, one: Entry, other: Entry) -> Type:
        first, second = one.type, other.type
        if first == second:
            return first
        if isinstance(first, Address) or isinstance(second, Address):
            self._give_away(one)
            self._give_away(other)
            return Pointer(first.target if isinstance(first, (Address, Pointer)) else OBJECT)
        if first == NULL or second == NULL:
            return second if first == NULL else first
        if self.program.is_reference(first) and self.program.is_reference(second):
            return self.program.common_base(first, second)
        return self._wider(first, second)

    def _wider(self, first: Type, second: Type) -> Type:
        """Returns the type of a number computed from these two."""
        widths = [self._width(kind) for kind in (first, second)]
        if _FLOAT in widths:
            return _FLOAT
        return INT64 if INT64 in widths else NATIVE if NATIVE in widths else INT32

    def _width(self, kind: Type) -> Type:
        kind = self.program.underlying(kind)
        if kind in (INT64, Primitive("uint64")):
            return INT64
        if kind in (NATIVE, _FLOAT):
            return kind
        return _FLOAT if str(kind).startswith("float") else INT32

    def _give_away(self, entry: Entry) -> None:
        """Records that the address of this value leaves the instructions that a rewriting sees."""
        kind = entry.type
        if isinstance(kind, Address) and kind.kind in ("local", "argument"):
            self.shared.add((kind.kind, kind.detail))
        elif isinstance(kind, Address):
            self.shared |= {("at", index) for index in entry.producers}

    def _effect(self, index: int, stack: Stack) -> Stack:
        """Returns the stack after an instruction."""
        part = self.code[index]
        count, pushed = self._pops_and_pushes(part, stack, index)
        if count > len(stack):
            raise ListingError(part.line, f"`{part.op}` takes more values than the stack holds")
        if part.op == "dup":
            self.height = max(self.height, len(stack) + 1)
            return stack + (stack[-1],)
        rest = stack[: len(stack) - count]
        if pushed is None:
            return rest
        constant = part.operand if part.op == "ldc.i4" else None
        self.height = max(self.height, len(rest) + 1)
        return rest + (Entry(pushed, frozenset((index,)), constant),)

    def _pops_and_pushes(self, part: Instruction, stack: Stack, index: int) -> tuple[int, Type | None]:
        op = part.op
        if op in ("call", "callvirt", "newobj"):
            return self._call(part, stack, index)
        if op in _NONE or op == "dup":
            return (1 if op == "dup" else 0), None
        if op in _BINARY and len(stack) > 1:
            return 2, self._wider(stack[-2].type, stack[-1].type)
        if op in _SHIFTS and len(stack) > 1:
            return 2, self._wider(stack[-2].type, INT32)
        if op in ("neg", "not") and stack:
            return 1, self._wider(stack[-1].type, INT32)
        if op in _COMPARES:
            return 2, BOOL
        if op in _BRANCHES_OF_TWO:
            return 2, None
        if op.startswith("conv."):
            return 1, conversion_target(op)
        found = _SIMPLE.get(op)
        if found is None:
            found = _OF_OPERAND[op](self, part, stack, index) if op in _OF_OPERAND else self._unknown(part)
        if op in _GIVES_AWAY and stack:
            self._give_away(stack[-1])
        return found

    def _unknown(self, part: Instruction) -> tuple[int, None]:
        raise ListingError(part.line, f"`{part.op}` is not an instruction that C# compilers write for safe code")

    def _call(self, part: Instruction, stack: Stack, index: int) -> tuple[int, Type | None]:
        wanted: MethodRef = part.operand
        count = len(wanted.parameters) + (wanted.is_instance and part.op != "newobj")
        if index and self.code[index - 1].op == "constrained." and self.program.is_reference(self.code[index - 1].operand):
            self.loaded |= stack[-count].producers
            return count, None if wanted.returned == VOID else wanted.returned
        if not takes_addresses(wanted):
            for entry in stack[max(0, len(stack) - count):]:
                self._give_away(entry)
        if part.op == "newobj":
            return count, wanted.owner
        if isinstance(wanted.owner, Array) and wanted.name == "Address":
            return count, self._rectangle_address(wanted.owner.element, index)
        return count, None if wanted.returned == VOID else wanted.returned

    def _rectangle_address(self, element: Type, index: int) -> Type:
        """Returns the address that the method `Address` of an array of two dimensions pushes."""
        if self.program.is_struct(element) or ("at", index) in self.shared:
            return Pointer(element)
        return Address("element", element)

    def argument_type(self, number: int) -> Type:
        """Returns the type of an argument; that of `this` in a struct is its address."""
        if not self.method.is_static:
            if number == 0:
                return Pointer(self.owner.type) if self.program.is_struct(self.owner.type) else self.owner.type
            number -= 1
        if not 0 <= number < len(self.method.parameters):
            raise ListingError(self.method.line, f"the method has no argument {number}")
        return self.method.parameters[number].type

    def variable(self, part: Instruction) -> tuple[str, int, Type]:
        """Returns the kind, number and type of the variable of `ldloc`, `starg` and others."""
        number = part.operand
        if isinstance(number, str):
            number = self._variable_number(part)
        if part.op in ("ldarg", "starg", "ldarga"):
            return "argument", number, self.argument_type(number)
        if not 0 <= number < len(self.method.locals):
            raise ListingError(part.line, f"the method has no local {number}")
        return "local", number, self.method.locals[number].type

    def _variable_number(self, part: Instruction) -> int:
        """Returns the number of a variable that is named."""
        of_arguments = part.op in ("ldarg", "starg", "ldarga")
        variables = self.method.parameters if of_arguments else self.method.locals
        for number, variable in enumerate(variables):
            if variable.name == part.operand:
                return number + (of_arguments and not self.method.is_static)
        digits = str(part.operand).rpartition("_")[2]
        if digits.isdecimal():
            return int(digits)
        raise ListingError(part.line, f"no variable is named `{part.operand}`")

    def _load(self, part: Instruction, stack: Stack, index: int):
        return 0, self.variable(part)[2]

    def _address(self, part: Instruction, stack: Stack, index: int):
        """The address of a variable: of a struct, that of its object; of others, the variable's or, where it is given away, a cell's."""
        kind, number, target = self.variable(part)
        if index in self.loaded:
            return 0, target
        if self.program.is_struct(target) or (kind, number) in self.shared:
            return 0, Pointer(target)
        return 0, Address(kind, target, number)

    def _field_address(self, part: Instruction, stack: Stack, index: int):
        wanted: FieldRef = part.operand
        count = int(part.op == "ldflda")
        if index in self.loaded:
            return count, wanted.type
        if self.program.is_struct(wanted.type) or ("at", index) in self.shared:
            return count, Pointer(wanted.type)
        return count, Address("field" if count else "static", wanted.type, wanted)

    def _element_address(self, part: Instruction, stack: Stack, index: int):
        if index in self.loaded:
            return 2, part.operand
        if self.program.is_struct(part.operand) or ("at", index) in self.shared:
            return 2, Pointer(part.operand)
        return 2, Address("element", part.operand)

    def _element(self, part: Instruction, stack: Stack, index: int):
        """The type of a loaded element: that of the array if it is known."""
        array = stack[-2].type if len(stack) > 1 else NULL
        named = _INDIRECT.get(part.op.removeprefix("ldelem."))
        if part.op == "ldelem":
            return 2, part.operand
        known = array.element if isinstance(array, Array) else None
        return 2, known if known is not None else named or OBJECT

    def _indirect(self, part: Instruction, stack: Stack, index: int):
        kind = stack[-1].type if stack else NULL
        if isinstance(kind, (Address, Pointer)):
            return 1, kind.target
        return 1, _INDIRECT.get(part.op.removeprefix("ldind."), OBJECT)


_SIMPLE: dict[str, tuple[int, Type | None]] = {
    "ldnull": (0, NULL), "ldstr": (0, STRING), "ldc.i4": (0, INT32), "ldc.i8": (0, INT64), "ldc.r4": (0, _FLOAT), "ldc.r8": (0, _FLOAT),
    "pop": (1, None), "brtrue": (1, None), "brfalse": (1, None), "switch": (1, None), "starg": (1, None), "stloc": (1, None),
    "stfld": (2, None), "stsfld": (1, None), "ldlen": (1, NATIVE), "throw": (1, None), "initobj": (1, None), "stobj": (2, None),
    "cpobj": (2, None), "sizeof": (0, INT32), "localloc": (1, NATIVE), "ckfinite": (1, _FLOAT), "arglist": (0, OBJECT),
    "cpblk": (3, None), "initblk": (3, None),
}
_SIMPLE |= {f"stelem{kind}": (3, None) for kind in ("", ".ref", ".i", ".i1", ".i2", ".i4", ".i8", ".r4", ".r8")}
_SIMPLE |= {f"stind.{kind}": (2, None) for kind in ("ref", "i", "i1", "i2", "i4", "i8", "r4", "r8")}
_OF_OPERAND = {
    "ldarg": Analysis._load, "ldloc": Analysis._load, "ldarga": Analysis._address, "ldloca": Analysis._address,
    "ldfld": lambda self, part, stack, index: (1, part.operand.type),
    "ldsfld": lambda self, part, stack, index: (0, part.operand.type),
    "ldflda": Analysis._field_address, "ldsflda": Analysis._field_address, "ldelema": Analysis._element_address,
    "newarr": lambda self, part, stack, index: (1, Array(part.operand)),
    "castclass": lambda self, part, stack, index: (1, part.operand),
    "isinst": lambda self, part, stack, index: (1, part.operand),
    "box": lambda self, part, stack, index: (1, part.operand if self.program.is_reference(part.operand) else OBJECT),
    "unbox.any": lambda self, part, stack, index: (1, part.operand),
    "unbox": lambda self, part, stack, index: (1, Pointer(part.operand)),
    "ldobj": Analysis._indirect,
    "ldftn": lambda self, part, stack, index: (0, Function(part.operand, False)),
    "ldvirtftn": lambda self, part, stack, index: (1, Function(part.operand, True)),
    "ldtoken": lambda self, part, stack, index: (0, Data(part.operand) if isinstance(part.operand, FieldRef) else OBJECT),
    "ret": lambda self, part, stack, index: (len(stack), None),
}
_OF_OPERAND |= {f"ldelem{kind}": Analysis._element for kind in ("", ".ref", ".i", ".r4", ".r8", *(f".{w}{n}" for w in "iu" for n in "1248"))}
_OF_OPERAND |= {f"ldind.{kind}": Analysis._indirect for kind in ("ref", "i", "r4", "r8", *(f"{w}{n}" for w in "iu" for n in "1248"))}
# Instructions that keep the value on the top of the stack where no rewriting sees it.
_GIVES_AWAY = frozenset(("stloc", "starg", "stfld", "stsfld", "ret", "box"))


def takes_addresses(wanted: MethodRef) -> bool:
    """Whether a rewriting deals with the address that this call is given: `Monitor.Enter(object, ref bool)`."""
    return wanted.name == "Enter" and str(wanted.owner) == "System.Threading.Monitor" and len(wanted.parameters) == 2
