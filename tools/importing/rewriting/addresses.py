"""Addresses: `ref`, `out`, `a[i] += x`, `x.f++` on an element (ECMA-335 I.12.3.2.1, III.3.12, III.4.9 and others).

An address that only loads and stores of the same method use is kept in parts: a variable or static field in none, a field as its object,
an element as its array and index. One that a call is given is an object: a variable becomes a cell, a field or element an object of
`Importer.Reference` that loads and stores there.
"""

from ..site import Code, Site, reference_of, variable_field
from ..stack_types import Address
from ..tree import ClassDef, Field, Instruction, Method, Variable, constructor
from ..types import INT32, VOID, Array, Class, FieldRef, MethodRef, Pointer, Type

_PUBLIC = frozenset(("public", "hidebysig", "virtual", "instance"))


def prologue(code: Code, line: int) -> list[Instruction]:
    """Returns instructions that make the cells of variables whose addresses are given away."""
    made: list[Instruction] = []
    for kind, number in sorted(part for part in code.analysis.shared if part[0] != "at"):
        target = code.method.locals[number].type if kind == "local" else code.analysis.argument_type(number)
        local = number if kind == "local" else code.add_local(target)
        code.program.use("Importer.Variable`1", target)
        cell = variable_field(target).owner
        made += [Instruction("newobj", MethodRef(cell, ".ctor", VOID, (), True), line), Instruction("stloc", local, line)]
        if kind == "argument":
            code.cells[number] = local
            load = [Instruction("ldloc", local, line), Instruction("ldarg", number, line)]
            made += [*load, Instruction("stfld", variable_field(target), line)]
        code.method.locals[local].type = cell
    return made


def _cell(site: Site) -> tuple[int, Type] | None:
    """Returns the local with the cell of an instruction's variable, and the variable's type."""
    kind, number, _ = site.analysis.variable(site.part)
    if (kind, number) not in site.analysis.shared:
        return None
    local = number if kind == "local" else site.code.cells[number]
    return local, site.code.method.locals[local].type.arguments[0]


def load(site: Site) -> list[Instruction] | None:
    """Rewrites `ldloc` and `ldarg` of a variable in a cell."""
    found = _cell(site)
    return site.makes(("ldloc", found[0]), ("ldfld", variable_field(found[1]))) if found else None


def store(site: Site) -> list[Instruction] | None:
    """Rewrites `stloc` and `starg` of a variable in a cell."""
    found = _cell(site)
    if not found:
        return None
    value = site.temporary(found[1])
    return site.makes(("stloc", value), ("ldloc", found[0]), ("ldloc", value), ("stfld", variable_field(found[1])))


def variable(site: Site) -> list[Instruction] | None:
    """Rewrites `ldloca` and `ldarga`."""
    kind, number, target = site.analysis.variable(site.part)
    if site.program.is_struct(target):
        return None
    if site.index in site.analysis.loaded:
        found = _cell(site)
        name = "ldloc" if kind == "local" else "ldarg"
        return site.makes(("ldloc", found[0]), ("ldfld", variable_field(found[1]))) if found else site.makes((name, number))
    found = _cell(site)
    return site.makes(("ldloc", found[0])) if found else []


def field(site: Site) -> list[Instruction] | None:
    """Rewrites `ldflda` and `ldsflda`."""
    wanted: FieldRef = site.operand
    is_static = site.part.op == "ldsflda"
    if site.program.is_struct(wanted.type):
        return None
    if site.index in site.analysis.loaded:
        return site.makes(("ldsfld" if is_static else "ldfld", wanted))
    if ("at", site.index) not in site.analysis.shared:
        return []
    kind = _field_class(site, wanted, is_static)
    parameters = () if is_static else (wanted.owner,)
    return [site.make("newobj", MethodRef(kind, ".ctor", VOID, parameters, True))]


def element(site: Site) -> list[Instruction] | None:
    """Rewrites `ldelema`."""
    kind: Type = site.operand
    if site.program.is_struct(kind):
        return None
    if site.index in site.analysis.loaded:
        return [site.load_element(kind)]
    if ("at", site.index) not in site.analysis.shared:
        return []
    site.count("addresses given away")
    site.program.use("Importer.Element`1", kind)
    return [site.make("newobj", MethodRef(Class(None, "Importer.Element`1", (kind,)), ".ctor", VOID, (Array(kind), INT32), True))]


def _field_class(site: Site, wanted: FieldRef, is_static: bool) -> Class:
    """Makes the class of references to one field, once."""
    site.count("addresses given away")
    kind = Class(None, f"Importer.Field/{wanted.owner}.{wanted.name}")
    if site.program.find(kind) is None:
        site.program.use("Importer.Reference`1", wanted.type)
        site.program.add(_field_reference(kind, wanted, is_static, site.part.line))
    return kind


def _field_reference(kind: Class, wanted: FieldRef, is_static: bool, line: int) -> ClassDef:
    base = reference_of(wanted.type)
    target = FieldRef(kind, "target", wanted.owner)
    made = ClassDef(kind, frozenset(("public",)), line, base, is_after_listing=True)

    def code(*parts) -> list[Instruction]:
        return [Instruction(*part, line=line) if isinstance(part, tuple) else Instruction(part, line=line) for part in parts]

    start = [("ldarg", 0), ("call", MethodRef(base, ".ctor", VOID, (), True))]
    if is_static:
        made.methods.append(constructor(line, [], code(*start, "ret")))
        own, name = [], "sfld"
    else:
        made.fields.append(Field("target", wanted.owner, frozenset(("public",)), line))
        check = [("ldarg", 1), ("ldfld", wanted), "pop"]
        keep = [("ldarg", 0), ("ldarg", 1), ("stfld", target), "ret"]
        made.methods.append(constructor(line, [Variable(wanted.owner)], code(*start, *check, *keep)))
        own, name = [("ldarg", 0), ("ldfld", target)], "fld"
    get = code(*own, (f"ld{name}", wanted), "ret")
    put = code(*own, ("ldarg", 1), (f"st{name}", wanted), "ret")
    made.methods.append(Method("Get", wanted.type, [], _PUBLIC, line, code=get))
    made.methods.append(Method("Set", VOID, [Variable(wanted.type)], _PUBLIC, line, code=put))
    return made


def load_indirect(site: Site) -> list[Instruction] | None:
    """Rewrites `ldind.X` and `ldobj`."""
    address = site.top()
    if isinstance(address, Pointer) and not site.program.is_struct(address.target):
        site.program.use("Importer.Reference`1", address.target)
        return [site.call(reference_of(address.target), "Get", address.target, op="callvirt", is_instance=True)]
    return [_load_at(site, address)] if isinstance(address, Address) else None


def _load_at(site: Site, address: Address) -> Instruction:
    if address.kind == "element":
        return site.load_element(address.target)
    names = {"local": "ldloc", "argument": "ldarg", "field": "ldfld", "static": "ldsfld"}
    return site.make(names[address.kind], address.detail)


def store_indirect(site: Site) -> list[Instruction] | None:
    """Rewrites `stind.X` and `stobj`."""
    return _store_at(site, site.top(1))


def _store_at(site: Site, address: Type) -> list[Instruction] | None:
    if isinstance(address, Pointer) and not site.program.is_struct(address.target):
        site.program.use("Importer.Reference`1", address.target)
        return [site.call(reference_of(address.target), "Set", VOID, address.target, op="callvirt", is_instance=True)]
    if not isinstance(address, Address):
        return None
    if address.kind == "element":
        return [site.store_element(address.target)]
    names = {"local": "stloc", "argument": "starg", "field": "stfld", "static": "stsfld"}
    return [site.make(names[address.kind], address.detail)]


def initialize(site: Site) -> list[Instruction] | None:
    """Rewrites `initobj` of what is not a struct (III.4.5)."""
    stored = _store_at(site, site.top())
    return None if stored is None else [site.default(site.top().target), *stored]


def duplicate(site: Site) -> list[Instruction] | None:
    """Rewrites `dup` of an address in parts."""
    address = site.top()
    if not isinstance(address, Address):
        return None
    if address.kind != "element":
        return site.makes("dup") if address.kind == "field" else []
    site.count("operations on an element in place")
    array, index = site.temporary(Array(address.target)), site.temporary(INT32)
    both = [("ldloc", array), ("ldloc", index)]
    return site.makes(("stloc", index), ("stloc", array), *both, *both)


def drop(site: Site) -> list[Instruction] | None:
    """Rewrites `pop` of an address in parts."""
    address = site.top()
    if not isinstance(address, Address):
        return None
    return site.makes(*["pop"] * {"element": 2, "field": 1}.get(address.kind, 0))


_SUFFIXES = "i1 u1 i2 u2 i4 u4 i8 u8 i u ref".split()
RULES = {
    "ldloc": load, "ldarg": load, "stloc": store, "starg": store, "ldloca": variable, "ldarga": variable, "ldflda": field,
    "ldsflda": field, "ldelema": element, "ldobj": load_indirect, "stobj": store_indirect, "initobj": initialize, "dup": duplicate, "pop": drop,
}
RULES |= {f"ldind.{kind}": load_indirect for kind in _SUFFIXES}
RULES |= {f"stind.{kind}": store_indirect for kind in _SUFFIXES}
