"""Comparisons, divisions and remainders of `uint` and `ulong` (ECMA-335 III.1.5, III.3.32, III.3.56).

Both operands `xor` the least integer keep their unsigned order as signed ones. Numbers of 32 bits are divided as ones of 64; those of 64
bits by a method of the importer's library. `cgt.un` with null asks whether a reference is one.
"""

from ..site import Site
from ..tree import Instruction
from ..types import INT32, INT64, Class

_LEAST = {INT32: -(1 << 31), INT64: -(1 << 63)}
_MASK = 0xFFFFFFFF
_HELPER = Class(None, "Importer.Unsigned")


def compare(site: Site) -> list[Instruction]:
    """Rewrites `cgt.un`, `blt.un` and others."""
    if not site.part.op.startswith("b") and site.program.is_reference(site.top(1)):
        site.count("`cgt.un` with null")
        return site.makes("ceq", ("ldc.i4", 0), "ceq")
    site.count("unsigned comparisons")
    kind = INT64 if site.is_long() else INT32
    flip = (("ldc.i8" if kind == INT64 else "ldc.i4", _LEAST[kind]), "xor")
    local = site.temporary(kind)
    return site.makes(*flip, ("stloc", local), *flip, ("ldloc", local), (site.part.op.removesuffix(".un"), site.operand))


def divide(site: Site) -> list[Instruction]:
    """Rewrites `div.un` and `rem.un`."""
    site.count("unsigned divisions")
    if site.is_long():
        site.program.use(_HELPER.name)
        return [site.call(_HELPER, "Divide" if site.part.op == "div.un" else "Remainder", INT64, INT64, INT64)]
    local = site.temporary(INT64)
    widen = ["conv.i8", ("ldc.i8", _MASK), "and"]
    op = site.part.op.removesuffix(".un")
    return site.makes(*widen, ("stloc", local), *widen, ("ldloc", local), op, "conv.i4")


def refuse_checked(site: Site) -> list[Instruction]:
    """Refuses `add.ovf.un` and others."""
    return site.refuse(f"`checked` arithmetic of unsigned numbers (`{site.part.op}`)", "compute with `long`")


RULES = {f"{name}.un": compare for name in ("bge", "bgt", "ble", "blt", "cgt", "clt")}
RULES |= {"div.un": divide, "rem.un": divide}
RULES |= {f"{name}.ovf.un": refuse_checked for name in ("add", "sub", "mul")}
