"""Types and names of members as a listing has them (ECMA-335 II.7, II.14, II.15)."""

from dataclasses import dataclass, replace

CORE = "mscorlib"


@dataclass(frozen=True)
class Type:
    """A type; its kinds are the classes below."""


@dataclass(frozen=True)
class Primitive(Type):
    """A type with a keyword of its own: `int32`, `uint8`, `bool`, `object`, `string`, `void` and others."""

    name: str

    def __str__(self) -> str:
        return self.name


@dataclass(frozen=True)
class Class(Type):
    """A class, interface or value type: its assembly (None for the listing's own), its name with `/` before nested ones, and the arguments
    of a generic one."""

    assembly: str | None
    name: str
    arguments: tuple[Type, ...] = ()

    def __str__(self) -> str:
        arguments = f"<{', '.join(map(str, self.arguments))}>" if self.arguments else ""
        return f"{self.name.replace('/', '.')}{arguments}"


@dataclass(frozen=True)
class Array(Type):
    """An array; `rank` is the number of its dimensions."""

    element: Type
    rank: int = 1

    def __str__(self) -> str:
        return f"{self.element}[{',' * (self.rank - 1)}]"


@dataclass(frozen=True)
class Pointer(Type):
    """A managed pointer, `T&`."""

    target: Type

    def __str__(self) -> str:
        return f"{self.target}&"


@dataclass(frozen=True)
class Parameter(Type):
    """A generic parameter of a class (`!`) or a method (`!!`), by number or by name."""

    of_method: bool
    key: int | str

    def __str__(self) -> str:
        return f"{'!!' if self.of_method else '!'}{self.key}"


@dataclass(frozen=True)
class MethodRef:
    """A method as an instruction names it."""

    owner: Type
    name: str
    returned: Type
    parameters: tuple[Type, ...]
    is_instance: bool
    arguments: tuple[Type, ...] = ()

    def __str__(self) -> str:
        return f"{self.owner}.{self.name}({', '.join(map(str, self.parameters))})"


@dataclass(frozen=True)
class FieldRef:
    """A field as an instruction names it."""

    owner: Type
    name: str
    type: Type

    def __str__(self) -> str:
        return f"{self.owner}.{self.name}"


VOID, BOOL, CHAR = Primitive("void"), Primitive("bool"), Primitive("char")
INT32, INT64, NATIVE = Primitive("int32"), Primitive("int64"), Primitive("native int")
OBJECT, STRING = Primitive("object"), Primitive("string")

# The names of the core library for types that have a keyword.
KEYWORDS = {
    "System.Object": "object", "System.String": "string", "System.Void": "void", "System.Boolean": "bool", "System.Char": "char",
    "System.SByte": "int8", "System.Byte": "uint8", "System.Int16": "int16", "System.UInt16": "uint16", "System.Int32": "int32",
    "System.UInt32": "uint32", "System.Int64": "int64", "System.UInt64": "uint64", "System.Single": "float32", "System.Double": "float64",
    "System.IntPtr": "native int", "System.UIntPtr": "native uint",
}
NAMES = {keyword: name for name, keyword in KEYWORDS.items()}
PRIMITIVES = frozenset(KEYWORDS.values()) | {"typedref"}

# Integers of 32 bits or fewer that the profile does not have, with their ranges.
SMALL = {
    "bool": (0, 255), "char": (0, 65535), "int8": (-128, 127), "uint8": (0, 255), "int16": (-32768, 32767), "uint16": (0, 65535),
}


def core(name: str, *arguments: Type) -> Type:
    """Returns the type of the core library with this full name."""
    return Primitive(KEYWORDS[name]) if name in KEYWORDS else Class(CORE, name, arguments)


def map_type(kind: Type, change) -> Type:
    """Rebuilds a type from the inside out, applying `change` to each part."""
    if isinstance(kind, Array):
        kind = replace(kind, element=map_type(kind.element, change))
    elif isinstance(kind, Pointer):
        kind = replace(kind, target=map_type(kind.target, change))
    elif isinstance(kind, Class) and kind.arguments:
        kind = replace(kind, arguments=tuple(map_type(part, change) for part in kind.arguments))
    return change(kind)


def map_operand(operand, change):
    """Applies `change` to each type in an operand; other operands are returned as they are."""
    if isinstance(operand, Type):
        return map_type(operand, change)
    if isinstance(operand, FieldRef):
        return replace(operand, owner=map_type(operand.owner, change), type=map_type(operand.type, change))
    if isinstance(operand, MethodRef):
        return MethodRef(
            map_type(operand.owner, change), operand.name, map_type(operand.returned, change),
            tuple(map_type(part, change) for part in operand.parameters), operand.is_instance,
            tuple(map_type(part, change) for part in operand.arguments),
        )
    return operand
