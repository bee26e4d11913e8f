"""Static constructors: methods that `Main` calls first (ECMA-335 II.10.5.3).

More than spelling: they run before the program, each after those of the classes that it uses, and not at the first use of their class.
"""

from ..library import instructions
from ..program import Program
from ..tree import Method
from ..types import VOID, Class, MethodRef

NAME = ".cctor"
_NEW_NAME = "InitializeStatics"


def rewrite(program: Program) -> list[MethodRef]:
    """Renames the static constructors and returns calls of them, in the order in which they are to run."""
    found = {owner.type: method for owner, method in program.listing.methods() if method.name == NAME}
    order: list[Class] = []
    for kind in found:
        _visit(program, kind, found, order, set())
    for kind in order:
        method = found[kind]
        method.name = _NEW_NAME
        method.flags = frozenset(("public", "static"))
        if not program.classes[kind].is_library:
            program.report.note(method.line, "static constructors", f"static initialisers of `{kind}`: run at the beginning of `Main`")
    return [MethodRef(kind, _NEW_NAME, VOID, (), False) for kind in order]


def _visit(program: Program, kind: Class, found: dict[Class, Method], order: list[Class], seen: set[tuple]) -> None:
    """Puts the static constructor of a class after those of the classes that its code uses."""
    if kind in order or ("class", kind) in seen:
        return
    seen.add(("class", kind))
    pending = [found[kind]]
    while pending:
        for used, method in _used_classes(program, pending.pop()):
            if method is not None and id(method) not in seen:
                seen.add(id(method))
                pending.append(method)
            if used in found and used != kind:
                _visit(program, used, found, order, seen)
    order.append(kind)


def _used_classes(program: Program, method: Method):
    """Yields the classes that the code of a method names, each with the method that it calls there, if it does."""
    for part in instructions(method.code):
        owner = getattr(part.operand, "owner", None)
        if isinstance(part.operand, MethodRef):
            called = program.find_method(part.operand)
            yield owner, called[1] if called else None
        elif isinstance(owner, Class):
            yield owner, None
