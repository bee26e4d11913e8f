"""Array initialisers: `ldtoken` and `RuntimeHelpers.InitializeArray` become a store for each element that is not 0 (ECMA-335 II.16.3)."""

from ..site import Site
from ..stack_types import Data
from ..tree import Instruction
from ..types import Array, FieldRef

_SIZES = {
    "bool": 1, "int8": 1, "uint8": 1, "char": 2, "int16": 2, "uint16": 2, "int32": 4, "uint32": 4, "int64": 8, "uint64": 8,
}
_ZERO_EXTENDED = frozenset(("bool", "uint8", "char", "uint16"))


def token(site: Site) -> list[Instruction]:
    """`ldtoken field` pushes nothing: the call that follows knows the field."""
    if isinstance(site.operand, FieldRef) and site.next_op == "call":
        return []
    return site.refuse("`typeof`", "write a virtual method that returns the class")


def initialize(site: Site) -> list[Instruction] | None:
    """Rewrites the call of `InitializeArray`."""
    if site.operand.name != "InitializeArray" or not isinstance(site.top(), Data):
        return None
    found = site.program.find_field(site.top().field)
    data = site.program.listing.data.get(found[1].data or "") if found else None
    array = site.top(1)
    if data is None or not isinstance(array, Array):
        return site.refuse("an array initialiser without its data", "assign the elements one by one")
    kind = site.program.underlying(array.element)
    if str(kind) not in _SIZES:
        return site.refuse(f"an initialiser of `{array}`", "assign the elements one by one")
    site.count("array initialisers")
    made: list[Instruction] = []
    for number, value in enumerate(_values(data, str(kind))):
        if value:
            push = site.make("ldc.i8" if _SIZES[str(kind)] == 8 else "ldc.i4", value)
            made += [*site.makes("dup", ("ldc.i4", number)), push, site.store_element(kind)]
    return made + [site.make("pop")]


def _values(data: bytes, kind: str) -> list[int]:
    """Returns the elements in these bytes, as the machine's signed integers."""
    size = _SIZES[kind]
    is_signed = kind not in _ZERO_EXTENDED
    return [int.from_bytes(data[at:at + size], "little", signed=is_signed) for at in range(0, len(data) - size + 1, size)]


RULES = {"ldtoken": token, "call": initialize}
