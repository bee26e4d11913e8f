"""Writes a tree as a source of the profile (docs/PROFILE.md), the translation of line N of the listing on line N."""

from .names import BRANCHES, PLAIN_INSTRUCTIONS, PROFILE_INSTRUCTIONS, is_name
from .program import Program
from .report import ListingError
from .spelling import Spelling, Unspellable
from .stack_types import Analysis
from .tree import ClassDef, Field, Instruction, Method, TryBlock, Variable
from .types import OBJECT, Type, core

WIDTH = 120  # characters of a line after those of the listing
_BASES = frozenset(core(name) for name in ("System.ValueType", "System.MulticastDelegate"))
_EXTERNAL = ("mscorlib", "cilvm")
_SHORT_VARIABLES = frozenset(("ldarg", "ldloc", "stloc"))


class Lines:
    """Text by lines. What comes too late for its line is put on the last one."""

    def __init__(self) -> None:
        self.lines = [""]

    def put(self, line: int, text: str) -> None:
        """Adds text to a line, or to the last one if that is later."""
        while len(self.lines) < line:
            self.lines.append("")
        self.lines[-1] += f"  {text.lstrip()}" if self.lines[-1] else text

    def comment(self, line: int, text: str) -> None:
        """Adds a comment after a line."""
        if line <= len(self.lines):
            printable = "".join(character if " " <= character <= "~" else "?" for character in text)
            self.lines[line - 1] += f"  // import: {printable}"

    def text(self) -> str:
        return "\n".join(line.rstrip() for line in self.lines) + "\n"


class Writer:
    """Writes the classes of a program."""

    def __init__(self, program: Program, spelling: Spelling):
        self.program = program
        self.spelling = spelling
        self.lines = Lines()
        self.is_after_listing = False
        self.outer = {id(made.outer) for made in program.listing.classes if made.outer is not None}

    def write(self) -> str:
        """Returns the whole source."""
        self._assemblies()
        for made in self._order():
            if made.is_after_listing and not self.is_after_listing:
                self._tell_notes()
                self.lines.put(len(self.lines.lines) + 1, "// import: classes that the program needs beside its own")
            self.is_after_listing = made.is_after_listing
            self._write_or_refuse(made.line, lambda made=made: self._class(made))
        if not self.is_after_listing:
            self._tell_notes()
        return self._without_unused_extern(self.lines.text())

    def _without_unused_extern(self, text: str) -> str:
        """Leaves out the assembly with `Cilvm.Thread` that no listing named, where no thread is used."""
        is_named = any(is_external and name == "cilvm" for is_external, name, _ in self.program.listing.assemblies)
        return text if is_named or "[cilvm]" in text else text.replace("  .assembly extern cilvm {}", "", 1)

    def _tell_notes(self) -> None:
        if not self.spelling.is_strict:
            for note in sorted(self.program.report.notes):
                self.lines.comment(note.line, note.text)

    def _order(self) -> list[ClassDef]:
        """Returns the classes in the order of their lines, nested ones after or before the class around them, those after the listing last."""
        own = [made for made in self.program.listing.classes if not made.is_after_listing]
        own.sort(key=self._first_line)
        return own + [made for made in self.program.listing.classes if made.is_after_listing]

    def _first_line(self, made: ClassDef) -> tuple[int, int]:
        """The line of a class's first member, since nested classes may be between its head and its members."""
        lines = [part.line for part in [*made.fields, *made.methods] if part.line >= made.line]
        return (min(lines, default=made.line), made.line)

    def _write_or_refuse(self, line: int, write) -> None:
        """Writes a part; what can't be spelled is a refusal."""
        try:
            write()
        except Unspellable as error:
            if self.spelling.is_strict:
                raise
            if not self.program.report.is_refused(line):
                self.program.report.refuse(line, str(error), "write it otherwise: the profile has no such thing")

    def _put(self, line: int, text: str) -> None:
        """Puts text on its line; after the listing's lines, on the last one while it is short."""
        if self.is_after_listing and len(self.lines.lines[-1]) + len(text) > WIDTH:
            self.lines.put(len(self.lines.lines) + 1, f"    {text.lstrip()}")
        else:
            self.lines.put(0 if self.is_after_listing else line, text)

    def _put_new(self, line: int, text: str) -> None:
        self.lines.put(len(self.lines.lines) + 1 if self.is_after_listing else line, text)

    def _assemblies(self) -> None:
        """Writes the external assemblies, of which a translation needs two and no other, and then the listing's own."""
        assemblies = self.program.listing.assemblies
        is_strict = self.spelling.is_strict
        external = [(name, line) for is_external, name, line in assemblies if is_external and (is_strict or name in _EXTERNAL)]
        known = [name for name, _ in external]
        external += [(name, 0) for name in _EXTERNAL if not is_strict and name not in known]
        own = [(name, line) for is_external, name, line in assemblies if not is_external]
        for name, line in external:
            self.lines.put(line, f".assembly extern {name} {{}}")
        for name, line in own:
            self.lines.put(line, f".assembly {name if is_strict else self.spelling.labels.of(name)} {{}}")

    def _class(self, made: ClassDef) -> None:
        self._put_new(made.line, self._head(made) + " {")
        for part in made.fields:
            self._write_or_refuse(part.line, lambda part=part: self._field(part))
        for method in made.methods if self.spelling.is_strict else sorted(made.methods, key=lambda method: (method.is_copy, method.line)):
            self._write_or_refuse(method.line, lambda method=method: self._method(made, method))
        if self.is_after_listing:
            self._put_new(0, "}")
        else:
            self._put(self._close_line(made), "}")

    def _close_line(self, made: ClassDef) -> int:
        """The line of the closing brace, or that of the last member if nested classes follow it."""
        if id(made) not in self.outer or self.spelling.is_strict:
            return made.end_line
        return max([method.lines.get("close", method.line) for method in made.methods], default=made.line)

    def _head(self, made: ClassDef) -> str:
        name = self.spelling.owner(made.type)
        if made.is_interface:
            if self.spelling.is_strict and (made.implements or made.extends):
                raise Unspellable("an interface with a base")
            return f".class interface public abstract auto ansi {name}"
        words = "public abstract auto ansi" if "abstract" in made.flags else "public auto ansi"
        base = OBJECT if made.extends in _BASES or made.extends is None else made.extends
        if made.extends is None and self.spelling.is_strict:
            raise Unspellable("a class without a base")
        kinds: list[Type] = made.implements if self.spelling.is_strict else self.program.interfaces(made.type)
        listed = f" implements {', '.join(map(self.spelling.owner, kinds))}" if kinds else ""
        return f".class {words} {name} extends {self.spelling.owner(base)}{listed}"

    def _field(self, part: Field) -> None:
        static = "static " if part.is_static else ""
        text = f".field public {static}{self.spelling.type(part.type)} {self.spelling.members.of(part.name)}"
        self._put_new(part.line, f"  {text}")

    def _kind(self, made: ClassDef, method: Method) -> str:
        """Returns the words between `public` and the returned type."""
        hidden = "hidebysig " if "hidebysig" in method.flags else ""
        if method.name == ".ctor":
            return f"{hidden}specialname rtspecialname instance"
        if method.is_static:
            return f"{hidden}static"
        newslot = "newslot " if "newslot" in method.flags else ""
        if method.is_abstract:
            return f"{hidden}{newslot}abstract virtual instance"
        return f"{hidden}{newslot}virtual instance" if method.is_virtual else f"{hidden}instance"

    def _method(self, made: ClassDef, method: Method) -> None:
        if method.generics:
            raise Unspellable("a generic method")
        kinds = tuple(part.type for part in method.parameters)
        name = self.spelling.method_name(method.name, method.returned, kinds)
        parameters = ", ".join(map(self._variable, method.parameters))
        head = f"  .method public {self._kind(made, method)} {self.spelling.type(method.returned)} {name}({parameters}) cil managed {{"
        self._put_new(method.line, head)
        if not method.is_abstract:
            self._code(made, method)
        self._put(method.lines.get("close", 0), "  }")

    def _variable(self, part: Variable) -> str:
        name = f" {part.name}" if part.name is not None and (self.spelling.is_strict or is_name(part.name)) else ""
        return self.spelling.type(part.type) + name

    def _code(self, made: ClassDef, method: Method) -> None:
        if self.spelling.is_strict and method.max_stack_text is None:
            raise Unspellable("a method without `.maxstack`")
        if method.is_entry:
            self._put(method.lines.get("entry", 0), "    .entrypoint")
        self._put(method.lines.get("maxstack", 0), f"    .maxstack {self._height(made, method)}")
        if method.locals:
            self._put(method.lines.get("locals", 0), "    .locals init (")
            for number, part in enumerate(method.locals):
                end = ")" if number == len(method.locals) - 1 else ","
                self._put(part.line, f"      {self._variable(part)}{end}")
        for part in method.code:
            self._write_or_refuse(part.line, lambda part=part: self._instruction(part))

    def _height(self, made: ClassDef, method: Method) -> str:
        """Returns the height of the stack that the method declares, or what it needs now if that is more."""
        if self.spelling.is_strict:
            return method.max_stack_text or ""
        try:
            needed = Analysis(self.program, made, method).height
        except ListingError as error:
            self.program.report.refuse(error.line or method.line, error.message, "compile the program anew")
            needed = 0
        return str(max(needed, method.max_stack or 0))

    def _instruction(self, part: Instruction | TryBlock) -> None:
        if isinstance(part, TryBlock) or part.op not in PROFILE_INSTRUCTIONS:
            raise Unspellable("`.try`" if isinstance(part, TryBlock) else f"`{part.op}`")
        labels = "".join(f"{self.spelling.labels.of(label)}: " for label in part.labels)
        put = self._put_new if labels else self._put
        put(part.line, f"    {labels}{self._text(part)}")

    def _text(self, part: Instruction) -> str:
        """Spells an instruction."""
        op, operand = part.op, part.operand
        if part.written is not None and (self.spelling.is_strict or isinstance(operand, int)):
            return part.written
        if op in PLAIN_INSTRUCTIONS:
            return op
        if op in BRANCHES:
            return f"{op} {self.spelling.labels.of(operand)}"
        if op == "switch":
            return f"switch ({', '.join(map(self.spelling.labels.of, operand))})"
        if op in ("ldfld", "stfld", "ldsfld", "stsfld"):
            return f"{op} {self.spelling.field(operand)}"
        if op in ("call", "callvirt", "newobj"):
            return f"{op} {self.spelling.method(operand)}"
        if op in ("newarr", "castclass", "isinst"):
            return f"{op} {self.spelling.type(operand)}"
        if op in _SHORT_VARIABLES and operand in range(4) or op == "ldc.i4" and operand in range(9):
            return f"{op}.{operand}"
        return "ldc.i4.m1" if (op, operand) == ("ldc.i4", -1) else f"{op} {operand}"
