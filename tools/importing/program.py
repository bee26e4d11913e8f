"""The classes of a listing by name, with the relations between them that the rewritings ask for."""

from collections.abc import Callable, Iterator

from .report import Report
from .tree import ClassDef, Field, Listing, Method
from .types import INT32, OBJECT, Array, Class, FieldRef, MethodRef, Primitive, Type, core

THREAD = Class("cilvm", "Cilvm.Thread")


class Program:
    """A listing under translation: its tree, its classes by name, and the report."""

    def __init__(self, listing: Listing, report: Report):
        self.listing = listing
        self.report = report
        self.helpers: Callable[[Class], None] = lambda kind: None  # adds a class of the library; set when the library is bound
        self.classes: dict[Class, ClassDef] = {made.type: made for made in listing.classes}

    def add(self, made: ClassDef) -> None:
        """Adds a class after the others."""
        self.listing.classes.append(made)
        self.classes[made.type] = made

    def remove(self, gone: ClassDef) -> None:
        """Takes a class out."""
        self.listing.classes.remove(gone)
        del self.classes[gone.type]

    def use(self, name: str, *arguments: Type) -> None:
        """Adds a class of the importer's library, and the instance of it for these arguments."""
        kind = Class(None, name, arguments)
        if kind not in self.classes:
            self.helpers(kind)

    def find(self, kind: Type) -> ClassDef | None:
        """Returns the class of the listing or the library with this type."""
        return self.classes.get(kind) if isinstance(kind, Class) else None

    def _extends(self, kind: Type, name: str) -> bool:
        found = self.find(kind)
        return found is not None and found.extends == core(name)

    def is_enum(self, kind: Type) -> bool:
        return self._extends(kind, "System.Enum")

    def is_struct(self, kind: Type) -> bool:
        return self._extends(kind, "System.ValueType")

    def is_delegate(self, kind: Type) -> bool:
        return self._extends(kind, "System.MulticastDelegate")

    def is_interface(self, kind: Type) -> bool:
        """Whether a type is an interface of the listing or the library."""
        found = self.find(kind)
        return found is not None and found.is_interface

    def underlying(self, kind: Type) -> Type:
        """Returns the integer type of an enum, any other type as it is (II.14.3)."""
        if not self.is_enum(kind):
            return kind
        value = [part.type for part in self.classes[kind].fields if not part.is_static and not part.is_constant]
        return value[0] if value else INT32

    def is_reference(self, kind: Type) -> bool:
        """Whether values of this type are references in the listing."""
        if isinstance(kind, Primitive):
            return kind.name in ("object", "string", "null")
        return isinstance(kind, Array) or isinstance(kind, Class) and not self.is_struct(kind) and not self.is_enum(kind)

    def bases(self, kind: Type) -> Iterator[Type]:
        """Yields a class and its bases, nearest first."""
        seen = 0
        while kind is not None and seen <= len(self.classes):
            yield kind
            found = self.find(kind)
            kind = found.extends if found is not None else None
            seen += 1

    def interfaces(self, kind: Type) -> list[Type]:
        """Returns all interfaces of a class or interface, those of its bases and of its interfaces included."""
        found: list[Type] = []
        pending = list(self.bases(kind))
        while pending:
            made = self.find(pending.pop(0))
            for part in made.implements if made is not None else ():
                if part not in found:
                    found.append(part)
                    pending.append(part)
        return found

    def is_assignable(self, source: Type, target: Type) -> bool:
        """Whether the listing may use a value of the one class where the other is expected."""
        if source == target or target == OBJECT:
            return True
        return target in self.bases(source) or target in self.interfaces(source)

    def common_base(self, one: Type, other: Type) -> Type:
        """Returns the type at a point where paths with these two references meet."""
        if self.is_assignable(one, other):
            return other
        if self.is_assignable(other, one):
            return one
        of_other = list(self.bases(other))
        return next((base for base in self.bases(one) if base in of_other and self.find(base)), OBJECT)

    def find_method(self, wanted: MethodRef) -> tuple[ClassDef, Method] | None:
        """Returns the method that an instruction names, with its class, as the machine looks it up (II.15.2)."""
        key = (wanted.name, wanted.returned, wanted.parameters, not wanted.is_instance)
        for base in self.bases(wanted.owner):
            owner = self.find(base)
            for method in owner.methods if owner is not None else ():
                if method.signature() == key:
                    return owner, method
        return None

    def find_field(self, wanted: FieldRef) -> tuple[ClassDef, Field] | None:
        """Returns the field that an instruction names, with its class."""
        for base in self.bases(wanted.owner):
            owner = self.find(base)
            for made in owner.fields if owner is not None else ():
                if made.name == wanted.name:
                    return owner, made
        return None
