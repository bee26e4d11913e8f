"""The importer's library: classes of .NET written in CIL, in the folder `library`, read by the importer's own reader.

A class of the core library becomes the class of the same name there, if there is one, without brackets: `[mscorlib]System.Math` becomes
`System.Math`. The profile's own members (`docs/PROFILE.md`, "Built-in classes") stay as they are. What is in neither is refused, each use by
its line.
"""

from pathlib import Path

from . import advice
from .program import THREAD, Program
from .reader import read
from .report import Report
from .tree import ClassDef, Instruction, Method, TryBlock
from .types import (
    CORE, INT32, INT64, NAMES, OBJECT, STRING, Array, Class, FieldRef, MethodRef, Pointer, Primitive, Type, core, map_operand, map_type,
)

_FOLDER = Path(__file__).parent / "library"
_CONSOLE, _MONITOR = core("System.Console"), core("System.Threading.Monitor")
_BASES = frozenset(core(name) for name in ("System.ValueType", "System.Enum", "System.MulticastDelegate"))
_HELPERS = core("System.Runtime.CompilerServices.RuntimeHelpers")
_UNSUPPORTED = frozenset(("float32", "float64", "native uint", "typedref", "decimal"))


def _builtin_members() -> set[tuple]:
    """Returns the members that the profile has, and those that a rewriting knows by name."""
    members = {(OBJECT, ".ctor", ())}
    members |= {(_CONSOLE, "WriteLine", (kind,)) for kind in (INT32, INT64, STRING)}
    members |= {(_MONITOR, name, (OBJECT,)) for name in ("Enter", "Exit")}
    members |= {(THREAD, name, ()) for name in (".ctor", "Run", "Start", "Join")}
    members.add((_MONITOR, "Enter", (OBJECT, Pointer(Primitive("bool")))))
    array = core("System.Array")
    members |= {(array, "get_Length", ()), (array, "GetLength", (INT32,))}
    members |= {(array, "Copy", (array, array, INT32)), (array, "Copy", (array, INT32, array, INT32, INT32))}
    members |= {(OBJECT, "Equals", (OBJECT,)), (OBJECT, "GetHashCode", ())}
    members.add((_HELPERS, "InitializeArray", (core("System.Array"), core("System.RuntimeFieldHandle"))))
    return members


BUILTIN_MEMBERS = _builtin_members()


def load() -> dict[str, ClassDef]:
    """Returns the classes of the library by name."""
    classes: dict[str, ClassDef] = {}
    for path in sorted(_FOLDER.glob("*.il")):
        for made in read(path.read_text(encoding="ascii"), Report()).classes:
            made.is_library = made.is_after_listing = True
            classes[made.type.name] = made
    return classes


def instructions(code: list):
    """Yields the instructions of a method, those in protected blocks and their handlers included."""
    for part in code:
        if isinstance(part, TryBlock):
            yield from instructions(part.body)
            for _, _, handler in part.handlers:
                yield from instructions(handler)
        else:
            yield part


class Binder:
    """Binds what a listing names of .NET to the library, and adds the classes that it uses."""

    def __init__(self, program: Program):
        self.program = program
        self.library = load()
        self.pending: list[ClassDef] = []
        self.is_in_library = False

    def bind(self) -> None:
        """Binds every class of the listing, then every class of the library that these use."""
        for made in list(self.program.listing.classes):
            if made.type.name in self.library:
                remedy = "name the class or its namespace otherwise"
                self.program.report.refuse(made.line, f"a class with the name `{made.type.name}` of .NET", remedy)
                del self.library[made.type.name]
        self.pending = list(self.program.listing.classes)
        self._bind_pending()

    def add(self, name: str) -> None:
        """Adds a class of the library, and binds what it names."""
        self._use(Class(None, name))
        self._bind_pending()

    def _bind_pending(self) -> None:
        while self.pending:
            self._class(self.pending.pop(0))

    def _class(self, made: ClassDef) -> None:
        self.is_in_library = made.is_library
        if made.extends is not None and made.extends not in _BASES:
            made.extends = self._type(made.extends, made.line)
        made.implements = [self._type(part, made.line) for part in made.implements]
        for part in made.fields:
            part.type = self._type(part.type, part.line)
        for method in made.methods:
            self._method(method)

    def _method(self, method: Method) -> None:
        method.returned = self._type(method.returned, method.line)
        for variable in method.parameters + method.locals:
            variable.type = self._type(variable.type, variable.line)
        method.overrides = [self._override(wanted, method.line) for wanted in method.overrides]
        for instruction in instructions(method.code):
            self._operand(instruction)

    def _override(self, wanted: MethodRef, line: int) -> MethodRef:
        return map_operand(wanted, lambda kind: self._part(kind, line))

    def _operand(self, instruction: Instruction) -> None:
        wanted, line = instruction.operand, instruction.line
        if isinstance(wanted, MethodRef):
            instruction.operand = self._member(wanted, line)
        elif isinstance(wanted, FieldRef):
            if wanted.owner != STRING or wanted.name != "Empty":
                instruction.operand = self._field(wanted, line)
        elif isinstance(wanted, Type):
            instruction.operand = self._type(wanted, line)

    def _field(self, wanted: FieldRef, line: int) -> FieldRef:
        if wanted.type == Primitive("decimal") or not isinstance(wanted.owner, Class):
            self.program.report.refuse(line, f"`{wanted}`", advice.for_member(wanted))
            return wanted
        return map_operand(wanted, lambda kind: self._part(kind, line))

    def _member(self, wanted: MethodRef, line: int) -> MethodRef:
        """Binds a method: to the profile's own member, to the library's, or to none."""
        if isinstance(wanted.owner, Array) or (wanted.owner, wanted.name, wanted.parameters) in BUILTIN_MEMBERS:
            return wanted
        owner = wanted.owner
        if isinstance(owner, Primitive):
            owner = Class(CORE, NAMES.get(owner.name, owner.name))
        if isinstance(owner, Class) and owner.assembly is not None:
            if not self._has_member(owner.name, wanted):
                self.program.report.refuse(line, f"`{wanted}`", advice.for_member(wanted))
                return wanted
            self._check_meaning(wanted, line)
            owner = self._use(owner)
        bound = map_operand(wanted, lambda kind: self._part(kind, line))
        return MethodRef(
            map_type(owner, lambda kind: self._part(kind, line)), bound.name, bound.returned, bound.parameters, bound.is_instance, bound.arguments
        )

    def _check_meaning(self, wanted: MethodRef, line: int) -> None:
        """Reports if the meaning of the library's member differs from .NET's, and refuses keys that it can't compare."""
        if str(wanted.owner).startswith("System.Collections.Generic.Dictionary`2<") and self.program.is_struct(wanted.owner.arguments[0]):
            remedy = "use an `int` or a string that represents it"
            self.program.report.refuse(line, f"a `Dictionary` with the struct `{wanted.owner.arguments[0]}` as its key", remedy)
        found = advice.meaning(wanted)
        if found is not None and not self.is_in_library:
            self.program.report.note(line, *found)

    def _has_member(self, name: str, wanted: MethodRef) -> bool:
        """Whether the library's class of this name, or a base or interface of it, has such a method."""
        found = self.library.get(name)
        if found is None:
            return (Class("cilvm", name), wanted.name, wanted.parameters) in BUILTIN_MEMBERS
        if found.extends == core("System.MulticastDelegate") and wanted.name == ".ctor":
            return True
        plain = [self._without_assembly(kind) for kind in wanted.parameters]
        for method in found.methods:
            if method.name == wanted.name and [self._without_assembly(part.type) for part in method.parameters] == plain:
                return True
        above = [part for part in [found.extends, *found.implements] if isinstance(part, Class)]
        return any(self._has_member(part.name, wanted) for part in above)

    def _without_assembly(self, kind: Type) -> Type:
        """Returns a type without the core library's brackets, and with numbers for generic parameters."""
        return map_type(kind, lambda part: Class(None, part.name, part.arguments) if isinstance(part, Class) else part)

    def _type(self, kind: Type, line: int) -> Type:
        return map_type(kind, lambda part: self._part(part, line))

    def _part(self, kind: Type, line: int) -> Type:
        """Binds a type without looking into its parts, and refuses what has no counterpart."""
        if isinstance(kind, Primitive):
            if kind.name in _UNSUPPORTED or kind.name.endswith("*"):
                self.program.report.refuse(line, f"the type `{kind}`", "compute with `int` or `long`, and scale")
            return kind
        if not isinstance(kind, Class) or kind == THREAD:
            return kind
        if kind.assembly is None and kind in self.program.classes:
            return kind
        if kind.name in self.library:
            return self._use(kind)
        if kind.assembly is not None and kind not in (core("System.Array"), core("System.RuntimeFieldHandle")):
            self.program.report.refuse(line, f"`{kind}`", advice.for_class(kind))
        return kind

    def _use(self, kind: Class) -> Class:
        """Adds the library's class of this name to the program, once."""
        bound = Class(None, kind.name)
        if bound not in self.program.classes and kind.name in self.library:
            made = self.library[kind.name]
            self.program.add(made)
            self.pending.append(made)
        return Class(None, kind.name, kind.arguments)
