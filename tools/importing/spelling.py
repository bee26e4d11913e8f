"""How types and members are spelled in the profile: enums and small integers as `int32`, references as objects, names made legal."""

from collections import defaultdict

from .library import BUILTIN_MEMBERS
from .names import Names, class_text
from .program import THREAD, Program
from .rewriting.rectangles import class_of
from .site import reference_of
from .tree import Method
from .types import CORE, INT32, INT64, NAMES, OBJECT, SMALL, STRING, Array, Class, FieldRef, MethodRef, Pointer, Primitive, Type, map_type

_WORDS = {INT32, INT64, OBJECT, STRING, Primitive("void")}


class Unspellable(Exception):
    """A type or instruction that the profile does not have."""


class Spelling:
    """The spelling of a program's types and members."""

    def __init__(self, program: Program, is_strict: bool = False):
        self.program = program
        self.is_strict = is_strict
        self.classes = Names()
        self.members = Names()
        self.labels = Names()
        self._renamed: dict[tuple, str] = {}
        self._reserve()
        if not is_strict:
            self._rename_overloads()

    def _reserve(self) -> None:
        """Keeps the names that are legal already for those who have them."""
        for owner in self.program.listing.classes:
            self.classes.reserve(class_text(owner.type))
            for part in [*owner.fields, *owner.methods]:
                self.members.reserve(part.name)

    def _rename_overloads(self) -> None:
        """Gives methods other names whose parameters become the same: `F(bool)` beside `F(int)` becomes `F_bool`."""
        signatures: dict[tuple, set[tuple]] = defaultdict(set)
        for owner, method in self.program.listing.methods():
            alike = signatures[owner.type, method.name, *self._lower_signature(method)]
            alike.add((method.name, method.returned, tuple(part.type for part in method.parameters)))
            if method.name == ".ctor" and len(alike) > 1:
                remedy = "write a static method that makes the object"
                self.program.report.refuse(method.line, f"a constructor of `{owner.type}` that becomes like another", remedy)
        for signature in [signature for alike in signatures.values() if len(alike) > 1 for signature in alike]:
            self._rename(*signature)

    def _rename(self, name: str, returned: Type, kinds: tuple[Type, ...]) -> None:
        """Gives a method a name with its types, unless these are the profile's already."""
        if name != ".ctor" and any(self.lower(kind) != kind for kind in (returned, *kinds)):
            self._renamed[name, returned, kinds] = f"{name}_{'_'.join(map(class_text, kinds or (returned,)))}"

    def _lower_signature(self, method: Method) -> tuple:
        return self.lower(method.returned), tuple(self.lower(part.type) for part in method.parameters)

    def lower(self, kind: Type) -> Type:
        """Returns the profile's type for one of the listing."""
        return kind if self.is_strict else map_type(kind, self._part)

    def _part(self, kind: Type) -> Type:
        kind = self.program.underlying(kind)
        if isinstance(kind, Primitive):
            return INT32 if kind.name in SMALL or kind.name == "uint32" else INT64 if kind.name == "uint64" else kind
        if isinstance(kind, Pointer):
            return kind.target if self.program.is_struct(kind.target) else self._reference(kind)
        if isinstance(kind, Array) and kind.rank > 1:
            return class_of(kind)
        return kind

    def _reference(self, kind: Pointer) -> Type:
        return reference_of(kind.target)

    def type(self, kind: Type) -> str:
        """Spells a type."""
        lowered = self.keep_arguments(kind)
        brackets = ""
        while isinstance(lowered, Array):
            if lowered.rank > 1:
                raise Unspellable(f"the type `{kind}`")
            brackets += "[]"
            lowered = lowered.element
        if isinstance(lowered, Primitive):
            if lowered not in _WORDS:
                raise Unspellable(f"the type `{kind}`")
            return lowered.name + brackets
        return f"class {self.owner(lowered)}{brackets}"

    def keep_arguments(self, kind: Type) -> Type:
        """Returns the profile's type for one of the listing, in which instances of generic classes keep their names."""
        if self.is_strict:
            return kind
        if isinstance(kind, Array) and kind.rank == 1:
            return Array(self.keep_arguments(kind.element))
        return self._part(kind)

    def owner(self, kind: Type) -> str:
        """Spells a class where a member or a base is named."""
        if kind in (OBJECT, STRING):
            return f"[{CORE}]{NAMES[str(kind)]}"
        kind = kind if self.is_strict else self._part(kind)
        if not isinstance(kind, Class):
            raise Unspellable(f"a member of `{kind}`")
        if kind.assembly is not None:
            return f"[{kind.assembly}]{kind.name}"
        return self.classes.of(class_text(kind))

    def method_name(self, name: str, returned: Type, kinds: tuple[Type, ...]) -> str:
        """Spells a method's name."""
        if name == ".ctor":
            return name
        return self.members.of(self._renamed.get((name, returned, kinds), name))

    def method(self, wanted: MethodRef) -> str:
        """Spells a method in an instruction."""
        if wanted.owner == THREAD or (wanted.owner, wanted.name, wanted.parameters) in BUILTIN_MEMBERS:
            name = wanted.name
        else:
            name = self.method_name(wanted.name, wanted.returned, wanted.parameters)
        instance = "instance " if wanted.is_instance else ""
        kinds = ", ".join(map(self.type, wanted.parameters))
        return f"{instance}{self.type(wanted.returned)} {self.owner(wanted.owner)}::{name}({kinds})"

    def field(self, wanted: FieldRef) -> str:
        """Spells a field in an instruction."""
        return f"{self.type(wanted.type)} {self.owner(wanted.owner)}::{self.members.of(wanted.name)}"
