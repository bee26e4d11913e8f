"""Reads a listing to its tree: assemblies, classes and members. `code_reader` reads the code of methods."""

from . import code_reader
from .cursor import Cursor
from .report import ListingError, Report
from .tokens import tokenize
from .tree import ClassDef, Field, Listing, Method, Variable
from .types import Class, Type

_ACCESS = frozenset("public private family assembly famandassem famorassem privatescope".split())
_CLASS_WORDS = _ACCESS | frozenset(
    "interface abstract sealed auto sequential explicit ansi unicode autochar beforefieldinit serializable specialname rtspecialname nested "
    "import value enum".split()
)
_FIELD_WORDS = _ACCESS | frozenset("static initonly literal specialname rtspecialname notserialized".split())
_METHOD_WORDS = _ACCESS | frozenset(
    "static final virtual hidebysig newslot abstract specialname rtspecialname strict default instance explicit vararg reqsecobj".split()
)
_CLASS_WORDS_KEPT = frozenset("public interface abstract auto ansi".split())
_FIELD_WORDS_KEPT = frozenset(("public", "static"))
_METHOD_WORDS_KEPT = frozenset("public static virtual hidebysig newslot abstract instance".split())
_CONSTRUCTOR_WORDS = frozenset(("specialname", "rtspecialname"))
_TOP_LINES = frozenset((".imagebase", ".stackreserve", ".subsystem", ".corflags", ".ver", ".file"))


def read(text: str, report: Report) -> Listing:
    """Returns the tree of a listing. Fails where the text is none."""
    reader = _Reader(Cursor(tokenize(text), report), report)
    reader.listing_body("")
    return reader.listing


class _Reader:
    """Reads declarations into `listing`."""

    def __init__(self, cursor: Cursor, report: Report):
        self.cursor = cursor
        self.report = report
        self.listing = Listing()

    def listing_body(self, namespace: str) -> None:
        """Reads what is at the top, or in a namespace up to its brace."""
        cursor = self.cursor
        while cursor.token.kind != "end" and not (namespace and cursor.at("}")):
            self._top(cursor.next(), namespace)

    def _top(self, token, namespace: str) -> None:
        cursor = self.cursor
        if token.text == ".class":
            self.class_definition(namespace, None)
        elif token.text == ".namespace":
            self.report.count("`.namespace`")
            inner = cursor.name()
            cursor.expect("{")
            self.listing_body(f"{namespace}{inner}.")
            cursor.expect("}")
        elif token.text == ".assembly":
            self._assembly(token.line)
        elif token.text == ".module":
            self.report.count("`.module`")
            cursor.accept("extern")
            cursor.name()
        elif token.text == ".data":
            self._data()
        elif token.text == ".custom":
            self.attribute()
        elif token.text in _TOP_LINES:
            self.report.count(f"`{token.text}`")
            while cursor.line == token.line and cursor.token.kind != "end":
                cursor.next()
        else:
            raise ListingError(token.line, f"`{token.text}` where a class is expected")

    def _assembly(self, line: int) -> None:
        cursor = self.cursor
        is_external = cursor.accept("extern")
        name = cursor.name()
        if cursor.skip_group("{", "}"):
            self.report.count("content of `.assembly`")
        self.listing.assemblies.append((is_external, name, line))

    def _data(self) -> None:
        """Reads `.data LABEL = bytearray (..)` (II.16.3.1)."""
        cursor = self.cursor
        self.report.count("`.data`")
        cursor.accept("cil")
        label = cursor.name()
        cursor.expect("=")
        line = cursor.expect("bytearray").line
        text = "".join(token.text for token in cursor.skip_group("(", ")"))
        try:
            self.listing.data[label] = bytes.fromhex(text)
        except ValueError:
            raise ListingError(line, "the bytes of `.data` are not hexadecimal") from None

    def attribute(self) -> str:
        """Reads `.custom` and returns the attribute's class (II.21)."""
        self.report.count("`.custom`")
        kind = str(self.cursor.method_ref().owner)
        if self.cursor.accept("="):
            group = ("(", ")") if self.cursor.at("(") else ("{", "}")
            self.cursor.skip_group(*group)
        return kind

    def class_definition(self, namespace: str, outer: ClassDef | None) -> None:
        """Reads a class after `.class`; a nested one becomes one of its own (II.10)."""
        cursor = self.cursor
        line = self.cursor.tokens[cursor.position - 1].line
        flags = cursor.take_while(_CLASS_WORDS)
        name = cursor.name()
        full = f"{outer.type.name}/{name}" if outer else namespace + name
        inherited = list(outer.generics) if outer else []
        self._count_words("classes", flags, _CLASS_WORDS_KEPT)
        if outer:
            self.report.count("nested classes")
        made = ClassDef(Class(None, full), frozenset(flags), line, outer=outer)
        made.generics = self._generics() or inherited
        if cursor.accept("extends"):
            made.extends = cursor.type()
        if cursor.accept("implements"):
            made.implements = self._interfaces()
        self.listing.classes.append(made)
        cursor.expect("{")
        while not cursor.at("}"):
            self._member(cursor.next(), made)
        made.end_line = cursor.expect("}").line

    def _interfaces(self) -> list[Type]:
        """Reads the interfaces after `implements`."""
        found = [self.cursor.type()]
        while self.cursor.accept(","):
            found.append(self.cursor.type())
        return found

    def _count_words(self, of: str, words: list[str], kept: frozenset[str]) -> None:
        """Counts the words of declarations that the profile has not, `private` among them: access is not checked."""
        left_out = sum(word not in kept for word in words)
        if left_out:
            self.report.count(f"words on {of}", left_out)

    def _generics(self) -> list[str]:
        """Reads `<(constraints) T, ..>` and returns the names of the parameters (II.10.1.7)."""
        cursor, names = self.cursor, []
        if not cursor.accept("<"):
            return names
        while True:
            while cursor.at("class", "valuetype", ".ctor", "+", "-", "("):
                if cursor.at("("):
                    cursor.skip_group("(", ")")
                else:
                    cursor.next()
            names.append(cursor.name())
            if cursor.accept(">"):
                return names
            cursor.expect(",")

    def _member(self, token, owner: ClassDef) -> None:
        cursor = self.cursor
        if token.text == ".field":
            owner.fields.append(self._field(token.line))
        elif token.text == ".method":
            owner.methods.append(self._method(token.line))
        elif token.text == ".class":
            self.class_definition("", owner)
        elif token.text in (".property", ".event"):
            self.report.count(f"`{token.text}`")
            while not cursor.at("{"):
                cursor.next()
            cursor.skip_group("{", "}")
        elif token.text == ".custom":
            owner.attributes.append(self.attribute())
        elif token.text in (".pack", ".size"):
            cursor.integer()
        elif token.text == ".override":
            self._class_override(token.line)
        else:
            raise ListingError(token.line, f"`{token.text}` where a member of a class is expected")

    def _class_override(self, line: int) -> None:
        self.report.refuse(line, "`.override` outside of its method", "write an explicit interface method")
        self.cursor.accept("method")
        self.cursor.method_ref()
        self.cursor.expect("with")
        self.cursor.accept("method")
        self.cursor.method_ref()

    def _field(self, line: int) -> Field:
        """Reads a field after `.field` (II.16)."""
        cursor = self.cursor
        if cursor.at("["):
            cursor.skip_group("[", "]")
        flags = cursor.take_while(_FIELD_WORDS)
        if cursor.at("marshal"):
            cursor.next()
            cursor.skip_group("(", ")")
            flags += cursor.take_while(_FIELD_WORDS)
        self._count_words("fields", flags, _FIELD_WORDS_KEPT)
        kind = cursor.type()
        made = Field(cursor.name(), kind, frozenset(flags), line)
        made.is_constant = "literal" in flags
        if cursor.accept("at"):
            made.data = cursor.name()
        if cursor.accept("="):
            self._constant(made)
        return made

    def _constant(self, made: Field | None) -> None:
        """Passes over a constant: `int32(0x05)`, `"text"` or `nullref` (II.16.2)."""
        cursor = self.cursor
        if made is not None and not made.is_constant:
            self.report.refuse(made.line, f"the initial value of `{made.name}`", "assign it in a static constructor")
        cursor.next()
        if cursor.at("("):
            cursor.skip_group("(", ")")

    def _method(self, line: int) -> Method:
        """Reads a method after `.method` (II.15)."""
        cursor = self.cursor
        flags = cursor.take_while(_METHOD_WORDS)
        while cursor.at("pinvokeimpl"):
            self.report.refuse(line, "a method outside of the program (`pinvokeimpl`)", "write it in C#")
            cursor.next()
            cursor.skip_group("(", ")")
            flags += cursor.take_while(_METHOD_WORDS)
        returned = cursor.type()
        if cursor.at("marshal"):
            cursor.next()
            cursor.skip_group("(", ")")
        made = Method(cursor.name(), returned, [], frozenset(flags), line)
        self._count_words("methods", flags, _METHOD_WORDS_KEPT | (_CONSTRUCTOR_WORDS if made.name == ".ctor" else frozenset()))
        made.generics = self._generics()
        made.parameters = self._parameters()
        words = []
        while not cursor.at("{"):
            words.append(cursor.next().text)
        made.implementation = frozenset(words)
        made.lines["open"] = cursor.expect("{").line
        code_reader.read_body(self, made)
        return made

    def _parameters(self) -> list[Variable]:
        """Reads the parameters in parentheses, with their names."""
        cursor, found = self.cursor, []
        cursor.expect("(")
        while not cursor.accept(")"):
            cursor.direction()
            line, kind = cursor.line, cursor.type()
            if cursor.at("marshal"):
                cursor.next()
                cursor.skip_group("(", ")")
            name = None if cursor.at(",", ")") else cursor.name()
            found.append(Variable(kind, name, line))
            if not cursor.accept(",") and not cursor.at(")"):
                raise ListingError(cursor.line, f"`{cursor.token.text}` where `,` or `)` is expected")
        return found

    def parameter_constant(self) -> None:
        """Passes over `.param [N] = constant` in a method."""
        self.report.count("`.param`")
        self.cursor.skip_group("[", "]")
        if self.cursor.accept("="):
            self._constant(None)
