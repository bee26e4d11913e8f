"""An instruction under rewriting, with what a rule may ask and do there."""

from .program import Program
from .stack_types import Analysis, Entry, Stack
from .tree import ClassDef, Instruction, Method, Variable
from .types import INT64, Class, FieldRef, MethodRef, Primitive, Type

_VARIABLE = "Importer.Variable`1"


class Code:
    """A method under rewriting: its analysis and the locals that the rules add to it."""

    def __init__(self, program: Program, owner: ClassDef, method: Method):
        self.program = program
        self.owner = owner
        self.method = method
        self.analysis = Analysis(program, owner, method)
        self.variables = len(method.locals)
        self.converted: set[tuple[int, Type]] = set()  # what a value is cast or cut to after the instruction that pushes it
        self.cells: dict[int, int] = {}  # of arguments whose address is given away: the local with the cell
        self._temporaries: dict[tuple[Type, int], int] = {}

    def add_local(self, kind: Type) -> int:
        """Adds a local and returns its number."""
        self.method.locals.append(Variable(kind))
        return len(self.method.locals) - 1

    def temporary(self, kind: Type, number: int = 0) -> int:
        """Returns a local for use within one rule."""
        if (kind, number) not in self._temporaries:
            self._temporaries[kind, number] = self.add_local(kind)
        return self._temporaries[kind, number]


class Site:
    """An instruction of a method, with the stack before it."""

    def __init__(self, code: Code, index: int):
        self.code = code
        self.program = code.program
        self.analysis = code.analysis
        self.method = code.method
        self.index = index
        self.part: Instruction = code.analysis.code[index]
        self.stack: Stack = code.analysis.stacks[index] or ()

    @property
    def operand(self):
        return self.part.operand

    @property
    def next_op(self) -> str:
        """The name of the next instruction, empty at the end."""
        code = self.analysis.code
        return code[self.index + 1].op if self.index + 1 < len(code) else ""

    def entry(self, depth: int = 0) -> Entry:
        """Returns a value on the stack, 0 for the top."""
        return self.stack[-1 - depth]

    def top(self, depth: int = 0) -> Type:
        return self.entry(depth).type

    def is_long(self, depth: int = 0) -> bool:
        """Whether a value on the stack is an integer of 64 bits."""
        return self.program.underlying(self.top(depth)) in (INT64, Primitive("uint64"))

    def make(self, op: str, operand: object = None) -> Instruction:
        return Instruction(op, operand, self.part.line)

    def makes(self, *texts) -> list[Instruction]:
        """Returns instructions: each a name, or a name with its operand."""
        return [self.make(text) if isinstance(text, str) else self.make(*text) for text in texts]

    def call(self, owner: Class, name: str, returned: Type, *parameters: Type, op: str = "call", is_instance: bool = False) -> Instruction:
        return self.make(op, MethodRef(owner, name, returned, parameters, is_instance))

    def temporary(self, kind: Type, number: int = 0) -> int:
        return self.code.temporary(kind, number)

    def count(self, kind: str) -> None:
        """Counts a change of spelling; those in the library are none of the user's."""
        if not self.code.owner.is_library:
            self.program.report.count(kind)

    def note(self, kind: str, text: str) -> None:
        """Reports a change that means more than spelling."""
        if not self.code.owner.is_library:
            self.program.report.note(self.part.line, kind, text)

    def refuse(self, what: str, remedy: str) -> list[Instruction]:
        """Records a refusal; returns the instruction as it is, so that the others are looked at too."""
        self.program.report.refuse(self.part.line, what, remedy)
        return [self.part]

    def load_element(self, kind: Type) -> Instruction:
        return self.make(f"ldelem.{self.element_suffix(kind)}")

    def store_element(self, kind: Type) -> Instruction:
        return self.make(f"stelem.{self.element_suffix(kind)}")

    def element_suffix(self, kind: Type) -> str:
        """Returns `i4`, `i8` or `ref` for a type of elements."""
        if self.program.is_reference(kind) or self.program.is_struct(kind):
            return "ref"
        return "i8" if self.program.underlying(kind) in (INT64, Primitive("uint64")) else "i4"

    def default(self, kind: Type) -> Instruction:
        """Returns the instruction that pushes the value 0 or null of a type."""
        suffix = self.element_suffix(kind)
        return self.make("ldnull") if suffix == "ref" else self.make("ldc.i8" if suffix == "i8" else "ldc.i4", 0)


def variable_field(kind: Type) -> FieldRef:
    """Returns the field `value` of the cell of a variable of this type."""
    return FieldRef(Class(None, _VARIABLE, (kind,)), "value", kind)


def reference_of(kind: Type) -> Class:
    """Returns the class of references to locations of this type."""
    return Class(None, "Importer.Reference`1", (kind,))


def box_of(kind: Type) -> Class:
    """Returns the class of boxed values of this type."""
    return Class(None, "Importer.Box`1", (kind,))


def within_cell(kind: Type) -> Type:
    """Returns the type of the variable in a cell; of any other type, the type itself."""
    return kind.arguments[0] if isinstance(kind, Class) and kind.name == _VARIABLE else kind
