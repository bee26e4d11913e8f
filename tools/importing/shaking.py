"""Takes out the methods and classes of the importer's library that the program does not use."""

from collections.abc import Callable

from .library import instructions
from .program import Program
from .tree import ClassDef, Method
from .types import MethodRef, Type, map_operand, map_type

_KEPT = frozenset((".ctor", ".cctor"))


def shake(program: Program) -> None:
    """Keeps the methods of the library that are reached by name from the listing's own code, and the virtual ones."""
    pending = [method for owner, method in program.listing.methods() if not owner.is_library or _is_kept(method)]
    reached = {id(method) for method in pending}
    while pending:
        found = [method for part in instructions(pending.pop().code) for method in _called_methods(program, part.operand)]
        pending += [method for method in found if id(method) not in reached]
        reached |= {id(method) for method in found}
    for owner in program.listing.classes:
        owner.methods = [method for method in owner.methods if id(method) in reached]


def _is_kept(method: Method) -> bool:
    return method.is_virtual or method.name in _KEPT


def _called_methods(program: Program, operand: object) -> list[Method]:
    """Returns the methods of the library that an operand may name, by name and number of parameters."""
    if not isinstance(operand, MethodRef):
        return []
    name = getattr(operand.owner, "name", "")
    found = [made for made in program.listing.classes if made.is_library and made.type.name == name]
    return [
        method for made in found for method in made.methods
        if method.name == operand.name and len(method.parameters) == len(operand.parameters)
    ]


def drop_unused(program: Program, lower: Callable[[Type], Type]) -> None:
    """Takes out the classes of the library that no class of the listing names, nor one that these name; `lower` is `Spelling.lower`."""
    pending = [made for made in program.listing.classes if not made.is_library]
    kept = {id(made) for made in pending}
    while pending:
        for kind in _named_types(pending.pop(), lower):
            made = program.find(kind)
            if made is not None and id(made) not in kept:
                kept.add(id(made))
                pending.append(made)
    program.listing.classes = [made for made in program.listing.classes if id(made) in kept]


def _named_types(made: ClassDef, lower: Callable[[Type], Type]) -> set[Type]:
    """Returns the types that a class names, as the writer spells them."""
    found: set[Type] = set()

    def see(kind: Type) -> Type:
        found.add(kind)
        return kind

    kinds = [made.extends, *made.implements, *(part.type for part in made.fields)]
    for method in made.methods:
        kinds += [method.returned, *(part.type for part in method.parameters + method.locals)]
    for part in [part for method in made.methods for part in instructions(method.code)]:
        map_operand(map_operand(part.operand, lower), see)
    for kind in [kind for kind in kinds if kind is not None]:
        map_type(lower(kind), see)
    return found
