"""Arrays of two dimensions, and what all arrays have from `System.Array` (ECMA-335 II.14.2).

One of two dimensions is an object of the importer's class `Rectangle`, which has an array of arrays. `Array.Copy` is a method of the
library for each type of elements.
"""

from ..site import Site
from ..tree import Instruction
from ..types import INT32, VOID, Array, Class, FieldRef, MethodRef, core

_NAME = "Importer.Rectangle`1"
_COPYING = "Importer.Copying`1"
_BASE = core("System.Array")


def class_of(kind: Array) -> Class:
    """Returns the class of rectangles with these elements."""
    return Class(None, _NAME, (kind.element,))


def call(site: Site) -> list[Instruction] | None:
    """Rewrites the constructor and the methods `Get`, `Set` and `Address` of the array's type."""
    wanted: MethodRef = site.operand
    kind = wanted.owner
    if not isinstance(kind, Array) or kind.rank == 1:
        return None
    if kind.rank != 2:
        return site.refuse(f"`{kind}`", "write an array of arrays")
    site.count("arrays of two dimensions")
    site.program.use(_NAME, kind.element)
    if wanted.name == "Address":
        if ("at", site.index) in site.analysis.shared:
            return site.refuse(f"an element of `{kind}` by `ref`", "use a local variable, and store it after the call")
        return _address(site, kind)
    return [site.make(site.part.op, MethodRef(class_of(kind), wanted.name, wanted.returned, wanted.parameters, True))]


def _address(site: Site, kind: Array) -> list[Instruction]:
    """Turns a rectangle and two indices into the array of the row and the second index, and of a struct into its object."""
    first, second = site.temporary(INT32, 0), site.temporary(INT32, 1)
    rows = FieldRef(class_of(kind), "rows", Array(Array(kind.element)))
    made = site.makes(("stloc", second), ("stloc", first), ("ldfld", rows), ("ldloc", first), "ldelem.ref", ("ldloc", second))
    return made + (site.makes("ldelem.ref") if site.program.is_struct(kind.element) else [])


def length(site: Site) -> list[Instruction] | None:
    """Rewrites `Length` and `GetLength` of an array whose type is known."""
    wanted: MethodRef = site.operand
    if wanted.owner != _BASE or wanted.name not in ("get_Length", "GetLength"):
        return None
    kind = site.top(len(wanted.parameters))
    if not isinstance(kind, Array):
        return site.refuse(f"`{wanted}`", "declare the array's type")
    if kind.rank == 1:
        return site.makes("pop", "ldlen", "conv.i4") if wanted.parameters else site.makes("ldlen", "conv.i4")
    site.program.use(_NAME, kind.element)
    return [site.call(class_of(kind), wanted.name, INT32, *wanted.parameters, op="callvirt", is_instance=True)]


def copy(site: Site) -> list[Instruction] | None:
    """Rewrites `Array.Copy` of two arrays whose types are known and the same."""
    wanted: MethodRef = site.operand
    if wanted.owner != _BASE or wanted.name != "Copy":
        return None
    source, target = (site.top(depth) for depth, kind in reversed([*enumerate(reversed(wanted.parameters))]) if kind == _BASE)
    if source != target or not isinstance(source, Array) or source.rank > 1:
        return site.refuse("`Array.Copy` of arrays of different or unknown types", "write a loop over the elements")
    site.count("`Array.Copy`")
    site.program.use(_COPYING, source.element)
    kinds = tuple(source if kind == _BASE else kind for kind in wanted.parameters)
    return [site.call(Class(None, _COPYING, (source.element,)), "Copy", VOID, *kinds)]


RULES = {"newobj": call}


def call_of_array(site: Site) -> list[Instruction] | None:
    """Tries the rules for calls one by one."""
    return call(site) or length(site) or copy(site)


RULES |= {"call": call_of_array, "callvirt": call_of_array}
