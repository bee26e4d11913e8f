"""Boxing: an object with a field `value` for each type of values (ECMA-335 III.4.1, III.4.32, III.4.33).

A value of another type, or null, raises the exception that the standard wants: `castclass` and `ldfld` do.
"""

from ..site import Site, box_of
from ..tree import Instruction
from ..types import Class, FieldRef, MethodRef, VOID, Type


def _is_value(site: Site, kind: Type) -> bool:
    return not site.program.is_reference(kind) and not site.program.is_struct(kind)


def _box(site: Site) -> Class:
    """Returns the class of boxes for the instruction's type, with its enums apart."""
    site.count("boxing")
    site.program.use("Importer.Box`1", site.operand)
    return box_of(site.operand)


def box(site: Site) -> list[Instruction] | None:
    """Rewrites `box`; a reference is its own box."""
    if not _is_value(site, site.operand):
        return [] if site.program.is_reference(site.operand) else None
    kind = _box(site)
    return [site.make("newobj", MethodRef(kind, ".ctor", VOID, (site.operand,), True))]


def unbox(site: Site) -> list[Instruction] | None:
    """Rewrites `unbox.any`; of a class it is a cast."""
    if not _is_value(site, site.operand):
        return site.makes(("castclass", site.operand)) if site.program.is_reference(site.operand) else None
    kind = _box(site)
    return site.makes(("castclass", kind), ("ldfld", FieldRef(kind, "value", site.operand)))


def test(site: Site) -> list[Instruction] | None:
    """Rewrites `isinst` and `castclass` of a type of values."""
    if not _is_value(site, site.operand):
        return None
    return site.makes((site.part.op, _box(site)))


RULES = {"box": box, "unbox.any": unbox, "isinst": test, "castclass": test}
