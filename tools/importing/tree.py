"""The tree of a listing: classes with fields and methods, and the instructions of a method."""

from dataclasses import dataclass, field

from .types import VOID, Class, FieldRef, MethodRef, Type


@dataclass
class Instruction:
    """An instruction: its name in the long form, its operand, its line and its labels. `written` is its spelling where that is the
    profile's own, None if the writer is to choose one."""

    op: str
    operand: object = None
    line: int = 0
    labels: list[str] = field(default_factory=list)
    written: str | None = None


@dataclass
class TryBlock:
    """A protected block with its handlers, each its kind (`catch`, `finally`, `fault`, `filter`), its line and its code."""

    body: list
    line: int
    handlers: list[tuple[str, int, list]] = field(default_factory=list)


@dataclass
class Variable:
    """A parameter or a local: its type, its name if the listing gives one, and its line."""

    type: Type
    name: str | None = None
    line: int = 0


@dataclass
class Field:
    """A field; `data` is the label of its initial bytes, `is_constant` says that it is a literal, which has no storage."""

    name: str
    type: Type
    flags: frozenset[str]
    line: int
    data: str | None = None
    is_constant: bool = False

    @property
    def is_static(self) -> bool:
        return "static" in self.flags


@dataclass
class Method:
    """A method. `code` has instructions and, as it is read, protected blocks. `lines` are those of its parts, for the writer."""

    name: str
    returned: Type
    parameters: list[Variable]
    flags: frozenset[str]
    line: int
    generics: list[str] = field(default_factory=list)
    implementation: frozenset[str] = frozenset()
    code: list = field(default_factory=list)
    locals: list[Variable] = field(default_factory=list)
    max_stack: int | None = None
    is_entry: bool = False
    overrides: list[MethodRef] = field(default_factory=list)
    lines: dict[str, int] = field(default_factory=dict)
    max_stack_text: str | None = None
    is_copy: bool = False  # a further instance of a generic method

    @property
    def is_static(self) -> bool:
        return "static" in self.flags

    @property
    def is_virtual(self) -> bool:
        return "virtual" in self.flags

    @property
    def is_abstract(self) -> bool:
        return "abstract" in self.flags

    def signature(self) -> tuple:
        """What distinguishes this method from others of its class."""
        return (self.name, self.returned, tuple(part.type for part in self.parameters), self.is_static)


@dataclass
class ClassDef:
    """A class, interface or value type of the listing or of the importer's library."""

    type: Class
    flags: frozenset[str]
    line: int
    extends: Type | None = None
    implements: list[Type] = field(default_factory=list)
    generics: list[str] = field(default_factory=list)
    fields: list[Field] = field(default_factory=list)
    methods: list[Method] = field(default_factory=list)
    attributes: list[str] = field(default_factory=list)
    end_line: int = 0
    outer: "ClassDef | None" = None
    is_library: bool = False
    is_after_listing: bool = False  # is written after the last line of the listing

    @property
    def is_interface(self) -> bool:
        return "interface" in self.flags

    def method_ref(self, method: Method) -> MethodRef:
        """Returns how an instruction names a method of this class."""
        kinds = tuple(part.type for part in method.parameters)
        return MethodRef(self.type, method.name, method.returned, kinds, not method.is_static)

    def field_ref(self, name: str) -> FieldRef:
        """Returns how an instruction names a field of this class."""
        return FieldRef(self.type, name, next(part.type for part in self.fields if part.name == name))


@dataclass
class Listing:
    """A whole listing: its assemblies as (is external, name, line), its classes in their order, and the bytes of its data by label."""

    assemblies: list[tuple[bool, str, int]] = field(default_factory=list)
    classes: list[ClassDef] = field(default_factory=list)
    data: dict[str, bytes] = field(default_factory=dict)

    def methods(self):
        """Yields each method with its class."""
        for owner in self.classes:
            for method in owner.methods:
                yield owner, method


def constructor(line: int, parameters: list[Variable], code: list[Instruction]) -> Method:
    """Returns a constructor with this code."""
    flags = frozenset({"public", "specialname", "rtspecialname", "instance"})
    return Method(".ctor", VOID, parameters, flags, line, code=code)
