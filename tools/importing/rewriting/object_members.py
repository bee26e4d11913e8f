"""`Equals` and `GetHashCode` of `object`: a common base of the program's classes that has them (ECMA-335 IV, `System.Object`).

Where the program calls them on an `object`, the classes that extended `System.Object` extend the importer's class `Object`. Two boxes are
equal where they have the same type and value. A `GetHashCode` that no class overrides gives 0: .NET gives an arbitrary number.
"""

from ..program import Program
from ..library import instructions
from ..site import Site
from ..tree import Instruction
from ..types import BOOL, INT32, OBJECT, VOID, Class, MethodRef

_NAME = "Importer.Object"
_BASE = Class(None, _NAME)
_MEMBERS = frozenset(("Equals", "GetHashCode"))


def _is_member(operand: object) -> bool:
    return isinstance(operand, MethodRef) and operand.owner == OBJECT and operand.name in _MEMBERS


def rewrite(program: Program) -> None:
    """Gives the classes the common base, if the program calls its methods."""
    if any(_is_member(part.operand) for _, method in program.listing.methods() for part in instructions(method.code)):
        program.use(_NAME)
        program.report.count("a common base with `Equals` and `GetHashCode`")


def extend(program: Program) -> None:
    """Makes every class that extends `object` extend the common base, if there is one."""
    if _BASE not in program.classes:
        return
    for owner in program.listing.classes:
        if owner.extends == OBJECT and owner.type != _BASE and not owner.is_interface:
            owner.extends = _BASE
            for method in owner.methods:
                _call_base(method.code)


def _call_base(code: list[Instruction]) -> None:
    """Lets a constructor call that of the common base."""
    for part in code:
        if part.op == "call" and part.operand == MethodRef(OBJECT, ".ctor", VOID, (), True):
            part.operand = MethodRef(_BASE, ".ctor", VOID, (), True)


def call(site: Site) -> list[Instruction] | None:
    """Rewrites a call of `Equals` or `GetHashCode` of `object`."""
    if not _is_member(site.operand) or _BASE not in site.program.classes:
        return None
    receiver = site.top(len(site.operand.parameters))
    if site.program.is_struct(getattr(receiver, "target", receiver)):
        return site.refuse(f"`{site.operand.name}` of a struct", "compare its fields in a method of your own")
    if site.operand.name == "GetHashCode":
        site.note("`GetHashCode`", "`GetHashCode`: 0 where no class of the program overrides it")
    if site.part.op == "call":
        return [site.call(_BASE, site.operand.name, site.operand.returned, *site.operand.parameters, is_instance=True)]
    if site.operand.name == "Equals":
        return [site.call(_BASE, "AreEqual", BOOL, OBJECT, OBJECT)]
    return [site.call(_BASE, "HashOf", INT32, OBJECT)]


RULES = {"call": call, "callvirt": call}
