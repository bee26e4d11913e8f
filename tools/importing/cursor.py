"""A position in the tokens of a listing, and the reading of names, types and references to members (ECMA-335 II.7, II.15.4)."""

from .report import ListingError, Report
from .tokens import Token
from .types import KEYWORDS, PRIMITIVES, Array, Class, FieldRef, MethodRef, Parameter, Pointer, Primitive, Type, core

MOST_NESTING = 100
_OWN_LIBRARIES = ("mscorlib", "netstandard")
_OTHER_SPELLINGS = {
    "unsigned int8": "uint8", "unsigned int16": "uint16", "unsigned int32": "uint32", "unsigned int64": "uint64",
    "native unsigned": "native uint", "refany": "typedref",
}


class Cursor:
    """The tokens of a listing and the next one to be read."""

    def __init__(self, tokens: list[Token], report: Report):
        self.tokens = tokens
        self.report = report
        self.position = 0
        self.depth = 0

    @property
    def token(self) -> Token:
        return self.tokens[self.position]

    @property
    def line(self) -> int:
        return self.token.line

    def peek(self, distance: int = 1) -> str:
        """Returns the text of a later token, empty at the end."""
        index = min(self.position + distance, len(self.tokens) - 1)
        return self.tokens[index].text

    def at(self, *texts: str) -> bool:
        """Whether the next token is one of these, unquoted."""
        return self.token.kind not in ("quoted", "string", "end") and self.token.text in texts

    def accept(self, text: str) -> bool:
        """Reads this token if it is next, and says whether it was."""
        if self.at(text):
            self.position += 1
            return True
        return False

    def next(self) -> Token:
        """Reads any token but the end."""
        token = self.token
        if token.kind == "end":
            raise ListingError(token.line, "the listing ends in the middle of a declaration")
        self.position += 1
        return token

    def expect(self, text: str) -> Token:
        """Reads this token."""
        token = self.next()
        if token.kind in ("quoted", "string") or token.text != text:
            raise ListingError(token.line, f"`{token.text}` where `{text}` is expected")
        return token

    def take_while(self, words: frozenset[str]) -> list[str]:
        """Reads tokens as long as they are among these words."""
        found = []
        while self.token.kind == "word" and self.token.text in words:
            found.append(self.next().text)
        return found

    def skip_group(self, opening: str, closing: str) -> list[Token]:
        """Reads from `opening` to the `closing` that belongs to it, and returns what is between."""
        self.expect(opening)
        depth, inside = 1, []
        while depth:
            token = self.next()
            if token.kind not in ("quoted", "string"):
                depth += (token.text == opening) - (token.text == closing)
            inside.append(token)
        return inside[:-1]

    def name(self) -> str:
        """Reads a name, quoted or not."""
        token = self.next()
        if token.kind == "quoted":
            return token.text[1:-1].replace("\\'", "'").replace("\\\\", "\\")
        if token.kind != "word":
            raise ListingError(token.line, f"`{token.text}` where a name is expected")
        return token.text

    def integer(self) -> int:
        """Reads an integer, decimal or hexadecimal."""
        token = self.next()
        try:
            return int(token.text, 0) if "x" in token.text else int(token.text)
        except ValueError:
            raise ListingError(token.line, f"`{token.text}` where an integer is expected") from None

    def class_type(self) -> Type:
        """Reads a class: `[assembly]Name/Nested<arguments>`."""
        assembly = None
        if self.accept("["):
            assembly = self.name()
            self.expect("]")
        name = self.name()
        while self.accept("/"):
            name += "/" + self.name()
        if assembly is not None and (assembly in _OWN_LIBRARIES or assembly.startswith("System")):
            if name in KEYWORDS:
                return core(name)
            assembly = "mscorlib"
        return Class(assembly, name, self.type_arguments())

    def type_arguments(self) -> tuple[Type, ...]:
        """Reads `<type, ..>`, if it is next."""
        arguments: list[Type] = []
        if self.accept("<"):
            arguments.append(self.type())
            while self.accept(","):
                arguments.append(self.type())
            self.expect(">")
        return tuple(arguments)

    def type(self) -> Type:
        """Reads a type."""
        self.depth += 1
        if self.depth > MOST_NESTING:
            raise ListingError(self.line, "types are nested too deeply")
        found = self._suffixes(self._base_type())
        self.depth -= 1
        return found

    def _base_type(self) -> Type:
        if self.accept("class") or self.accept("valuetype"):
            return self.class_type()
        if self.at("!"):
            self.next()
            of_method = self.accept("!")
            token = self.token
            return Parameter(of_method, self.integer() if token.kind == "number" else self.name())
        if self.at("["):
            return self.class_type()
        if self.at("native", "unsigned"):
            first = self.next().text
            found = f"{first} {self.next().text}"
            if found == "native unsigned":
                self.accept("int")
            return Primitive(_OTHER_SPELLINGS.get(found, found))
        if self.token.kind == "word" and self.token.text in PRIMITIVES | _OTHER_SPELLINGS.keys():
            found = self.next().text
            return Primitive(_OTHER_SPELLINGS.get(found, found))
        return self.class_type()

    def _suffixes(self, found: Type) -> Type:
        while True:
            if self.at("[") and self.peek() in ("]", ",", "...") or self.at("[") and self.peek().isdecimal():
                rank = 1 + sum(token.text == "," for token in self.skip_group("[", "]"))
                found = Array(found, rank)
            elif self.at("modreq", "modopt"):
                self.next()
                self.skip_group("(", ")")
            elif self.accept("&"):
                found = Pointer(found)
            elif self.accept("*"):
                found = Primitive(f"{found}*")
            elif not self.accept("pinned"):
                return found

    def types(self) -> tuple[Type, ...]:
        """Reads the types of a call in parentheses; names and words in brackets between them are passed over."""
        found: list[Type] = []
        self.expect("(")
        while not self.accept(")"):
            self.direction()
            found.append(self.type())
            if not self.at(",", ")"):
                self.next()
            if not self.accept(",") and not self.at(")"):
                raise ListingError(self.line, f"`{self.token.text}` where `,` or `)` is expected")
        return tuple(found)

    def direction(self) -> None:
        """Passes over `[in]`, `[out]` and `[opt]`."""
        while self.at("[") and self.peek() in ("in", "out", "opt"):
            self.report.count("`[out]` and `[opt]`")
            self.skip_group("[", "]")

    def field_ref(self) -> FieldRef:
        """Reads `type owner::name`."""
        kind = self.type()
        owner = self._owner()
        self.expect("::")
        return FieldRef(owner, self.name(), kind)

    def _owner(self) -> Type:
        """Reads the class of a member, with or without `class` before it."""
        if self.at("class", "valuetype"):
            self.report.count("`class` before the class of a member")
        return self.type()

    def method_ref(self) -> MethodRef:
        """Reads `instance type owner::name<arguments>(types)`."""
        is_instance = self.accept("instance")
        self.accept("explicit")
        for word in ("default", "vararg"):
            self.accept(word)
        returned = self.type()
        owner = self._owner()
        self.expect("::")
        name = self.name()
        arguments = self.type_arguments()
        return MethodRef(owner, name, returned, self.types(), is_instance, arguments)
