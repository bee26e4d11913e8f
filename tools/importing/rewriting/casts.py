"""Casts to interfaces that the listing does without (ECMA-335 I.8.7, III.1.8.1.3).

In the profile an interface has no base, and a class and an interface meet as `object`. So a value whose static type does not say that it
has an interface is cast to it where it is used, or, below other values on the stack, where it is pushed. The cast can't fail.
"""

from ..site import Site
from ..stack_types import NULL, Entry
from ..types import OBJECT, MethodRef, Type


def uses(site: Site) -> list[tuple[Entry, Type]]:
    """Returns the values that an instruction takes, top first, with the types that they are used as."""
    op, operand = site.part.op, site.operand
    if op in ("call", "callvirt", "newobj") and isinstance(operand, MethodRef):
        kinds = list(operand.parameters)
        if operand.is_instance and op != "newobj":
            kinds.insert(0, operand.owner)
        return [(site.entry(depth), kind) for depth, kind in enumerate(reversed(kinds))]
    return []


def needs_cast(site: Site, entry: Entry, kind: Type) -> bool:
    """Whether the profile's verifier would not take this value for one of this type."""
    program = site.program
    if not program.is_interface(kind) or entry.type in (kind, NULL):
        return False
    if not program.is_reference(entry.type):
        return False
    return entry.type == OBJECT or program.is_interface(entry.type) or kind not in program.interfaces(entry.type)
