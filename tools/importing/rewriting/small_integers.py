"""`bool`, `char`, `byte`, `short` and their kind become `int32`, `uint` and `ulong` the signed type of their size.

Beyond spelling: a place of such a type keeps a whole `int32`, so what is stored there is cut to size before, as the standard's store does
(ECMA-335 III.1.1.1), unless it is known to fit. Conversions (III.3.27 to III.3.29) become `and` or a pair of shifts.
"""

from ..program import Program
from ..site import Site, within_cell
from ..stack_types import Entry, conversion_target
from ..tree import Instruction
from ..types import INT32, INT64, SMALL, Array, Class, MethodRef, Pointer, Primitive, Type

_UNSIGNED = {"uint32": "int32", "uint64": "int64"}
_HELPER = Class(None, "Importer.Conversions")


def note_declarations(program: Program) -> None:
    """Notes each declaration of the listing with such a type, by its line."""
    own = [made for made in program.listing.classes if not made.is_library and not program.is_enum(made.type)]
    methods = [method for made in own for method in made.methods]
    declared = [(part.line, part.type) for made in own for part in made.fields]
    declared += [(method.line, method.returned) for method in methods]
    declared += [(part.line or method.line, part.type) for method in methods for part in method.parameters + method.locals]
    for line, kind in declared:
        _note(program, line, kind)


def _note(program: Program, line: int, kind: Type) -> None:
    while isinstance(kind, (Array, Pointer)):
        kind = kind.element if isinstance(kind, Array) else kind.target
    name = str(program.underlying(kind))
    if name in SMALL or name in _UNSIGNED:
        program.report.note(line, "small and unsigned integers", f"`{kind}`: an `{_UNSIGNED.get(name, 'int32')}`")


def cut(site: Site, kind: Type) -> list[Instruction]:
    """Returns instructions that cut the int32 on the stack to a small type."""
    low, high = SMALL[str(kind)]
    if low == 0:
        return site.makes(("ldc.i4", high), "and")
    shift = 24 if high == 127 else 16
    return site.makes(("ldc.i4", shift), "shl", ("ldc.i4", shift), "shr")


def fits(site: Site, entry: Entry, kind: Type) -> bool:
    """Whether a value is known to be in the range of a small type."""
    low, high = SMALL[str(kind)]
    if entry.constant is not None:
        return low <= entry.constant <= high
    found = SMALL.get(str(site.program.underlying(entry.type)))
    return found is not None and low <= found[0] and found[1] <= high


def needs_cut(site: Site, entry: Entry, kind: Type) -> bool:
    """Whether a value has to be cut before it is stored where this type is. A `bool` of a compiler is always 0 or 1."""
    kind = site.program.underlying(kind)
    return str(kind) in SMALL and str(kind) != "bool" and not fits(site, entry, kind)


def convert(site: Site) -> list[Instruction]:
    """Rewrites `conv.X`."""
    target = conversion_target(site.part.op)
    if str(target).startswith("float"):
        return site.refuse(f"`{site.part.op}`", "compute with `int` or `long`, and scale")
    is_long = site.is_long()
    if str(target) in SMALL:
        site.count("conversions to small integers")
        return [*(site.makes("conv.i4") if is_long else []), *cut(site, target)]
    if str(target) == "uint64" and not is_long:
        site.count("conversions of `uint`")
        return site.makes("conv.i8", ("ldc.i8", 0xFFFFFFFF), "and")
    if str(target).startswith("native"):
        return site.makes("conv.i4") if is_long else []
    return site.makes("conv.i8" if target in (INT64, Primitive("uint64")) else "conv.i4")


def convert_checked(site: Site) -> list[Instruction]:
    """Rewrites `conv.ovf.X` by a method that raises `OverflowException` where the value is out of range."""
    target = conversion_target(site.part.op)
    if site.part.op.endswith(".un") or str(target) in ("uint64", "float64"):
        return site.refuse(f"`{site.part.op}`", "convert in `unchecked`, and test the range before")
    target = INT32 if str(target).startswith("native") else target
    if target == INT64 or target == INT32 and not site.is_long():
        return site.makes("conv.i8" if target == INT64 else "nop")
    site.count("checked conversions")
    ranges = SMALL | {"int32": (-(1 << 31), (1 << 31) - 1), "uint32": (0, (1 << 32) - 1)}
    low, high = ranges[str(target)]
    made = [] if site.is_long() else site.makes("conv.i8")
    made += site.makes(("ldc.i8", low), ("ldc.i8", high))
    site.program.use(_HELPER.name)
    return made + [site.call(_HELPER, "InRange", INT64, INT64, INT64, INT64), site.make("conv.i4")]


def element(site: Site) -> list[Instruction]:
    """Rewrites `ldelem.X` and `stelem.X` of small elements, and those that name their type."""
    is_load = site.part.op.startswith("ld")
    array = site.top(1 if is_load else 2)
    kind = site.operand if isinstance(site.operand, Type) else array.element if isinstance(array, Array) else None
    if kind is None:
        return [site.part]
    made = site.load_element(kind) if is_load else site.store_element(kind)
    if made.op == site.part.op:
        return [site.part]
    site.count("elements of small integers")
    return [made]


def length(site: Site) -> list[Instruction]:
    """A length that is not converted at once becomes an `int32`."""
    return [site.part] if site.next_op.startswith("conv.") else site.makes("ldlen", "conv.i4")


def stored_type(site: Site) -> Type | None:
    """Returns the declared type of the location in which an instruction stores the top of the stack."""
    op = site.part.op
    if op in ("stloc", "starg"):
        return within_cell(site.analysis.variable(site.part)[2])
    if op in ("stfld", "stsfld"):
        return site.operand.type
    if op.startswith("stelem"):
        return site.top(2).element if isinstance(site.top(2), Array) else None
    if op.startswith("stind") or op == "stobj":
        return getattr(site.top(1), "target", None)
    if op == "ret" and site.stack:
        return site.method.returned
    if op in ("call", "callvirt", "newobj") and isinstance(site.operand, MethodRef) and site.operand.parameters:
        return site.operand.parameters[-1]
    return None


RULES = {f"conv.{kind}": convert for kind in "i1 u1 i2 u2 i4 u4 i8 u8 i u r4 r8 r.un".split()}
RULES |= {f"conv.ovf.{kind}{end}": convert_checked for kind in "i1 u1 i2 u2 i4 u4 i8 u8 i u".split() for end in ("", ".un")}
RULES |= {f"ldelem{kind}": element for kind in "|.i1|.u1|.i2|.u2|.i4|.u4|.i8|.u8|.i|.ref".split("|")}
RULES |= {f"stelem{kind}": element for kind in "|.i1|.i2|.i4|.i8|.i|.ref".split("|")}
RULES["ldlen"] = length
