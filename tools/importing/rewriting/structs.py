"""Structs: a class whose objects are copied where the value would be (ECMA-335 II.13, I.12.1.6).

The address of a struct is its object. A load of the value copies the object, a store copies into the object that is there, so no two
places share one. Every place has its object from the beginning: a local from the method's, a field from its constructor's, an element
from `newarr`, a static field from the program's. That costs words and steps which a struct on the stack does not.
"""

from ..program import Program
from ..site import Code, Site
from ..tree import ClassDef, Instruction, Method, Variable, constructor
from ..types import INT32, VOID, Array, Class, FieldRef, MethodRef, Type

_COMPARED = Class(None, "Importer.Object")  # the common base of classes in a program that calls `Equals`
_NULLABLE = "System.Nullable`1"
_COPY, _ASSIGN, _CLEAR, _FILL = "CopyValue", "AssignValue", "ClearValue", "FillValues"


def _new(kind: Type, line: int) -> Instruction:
    return Instruction("newobj", MethodRef(kind, ".ctor", VOID, (), True), line)


def _copy(site: Site, kind: Type) -> Instruction:
    return site.call(kind, _COPY, kind, is_instance=True)


def _assign(kind: Type, line: int) -> Instruction:
    return Instruction("call", MethodRef(kind, _ASSIGN, VOID, (kind,), True), line)


def prologue(code: Code, line: int) -> list[Instruction]:
    """Returns instructions that give the struct locals of a method their objects, and in a constructor the struct fields."""
    program, method, made = code.program, code.method, []
    for number, variable in enumerate(method.locals[: code.variables]):
        if program.is_struct(variable.type):
            made += [_new(variable.type, line), Instruction("stloc", number, line)]
    if method.name == ".ctor" and (program.is_struct(code.owner.type) or _calls_base(code)):
        made += _new_fields(program, code.owner, line)
    return made


def _calls_base(code: Code) -> bool:
    """Whether a constructor calls one of its base, not one of its own class."""
    calls = [part.operand for part in code.analysis.code if part.op == "call" and part.operand.name == ".ctor"]
    return bool(calls) and calls[0].owner != code.owner.type


def _new_fields(program: Program, owner: ClassDef, line: int) -> list[Instruction]:
    made: list[Instruction] = []
    for part in owner.fields:
        if not part.is_static and program.is_struct(part.type):
            field = FieldRef(owner.type, part.name, part.type)
            made += [Instruction("ldarg", 0, line), _new(part.type, line), Instruction("stfld", field, line)]
    return made


def static_fields(program: Program) -> list[Instruction]:
    """Returns instructions that give the static struct fields of the program their objects."""
    made: list[Instruction] = []
    for owner in program.listing.classes:
        for part in owner.fields:
            if part.is_static and not part.is_constant and program.is_struct(part.type) and part.data is None:
                made += [_new(part.type, part.line), Instruction("stsfld", FieldRef(owner.type, part.name, part.type), part.line)]
    return made


def load(site: Site) -> list[Instruction] | None:
    """Copies at `ldloc`, `ldarg`, `ldfld` and `ldsfld`."""
    is_field = site.part.op in ("ldfld", "ldsfld")
    kind = site.operand.type if is_field else site.analysis.variable(site.part)[2]
    if not site.program.is_struct(kind):
        return None
    site.count("copies of structs")
    return [site.part, _copy(site, kind)]


def store(site: Site) -> list[Instruction] | None:
    """Copies into the object at `stloc`, `starg`, `stfld` and `stsfld`."""
    op = site.part.op
    is_field = op in ("stfld", "stsfld")
    kind = site.operand.type if is_field else site.analysis.variable(site.part)[2]
    if not site.program.is_struct(kind):
        return None
    value = site.temporary(kind)
    target = site.make("ld" + op[2:], site.operand)
    return [site.make("stloc", value), target, site.make("ldloc", value), _assign(kind, site.part.line)]


def address(site: Site) -> list[Instruction] | None:
    """The address of a struct is its object."""
    op = site.part.op
    if op == "ldelema":
        return site.makes("ldelem.ref") if site.program.is_struct(site.operand) else None
    is_field = op in ("ldflda", "ldsflda")
    kind = site.operand.type if is_field else site.analysis.variable(site.part)[2]
    return site.makes((op[:-1], site.operand)) if site.program.is_struct(kind) else None


def element(site: Site) -> list[Instruction] | None:
    """Copies at `ldelem` and into the object at `stelem`."""
    is_load = site.part.op.startswith("ld")
    array = site.top(1 if is_load else 2)
    kind = array.element if isinstance(array, Array) else site.operand
    if not site.program.is_struct(kind):
        return None
    if is_load:
        return [site.make("ldelem.ref"), _copy(site, kind)]
    value = site.temporary(kind)
    return [site.make("stloc", value), site.make("ldelem.ref"), site.make("ldloc", value), _assign(kind, site.part.line)]


def indirect(site: Site) -> list[Instruction] | None:
    """Copies at `ldobj`, into the object at `stobj`, and clears it at `initobj`."""
    kind = site.operand
    if not site.program.is_struct(kind):
        return None
    if site.part.op == "ldobj":
        return [_copy(site, kind)]
    if site.part.op == "stobj":
        return [_assign(kind, site.part.line)]
    return [site.call(kind, _CLEAR, VOID, is_instance=True)]


def array(site: Site) -> list[Instruction] | None:
    """Gives the elements of a new array their objects."""
    kind = site.operand
    if not site.program.is_struct(kind):
        return None
    return [site.part, site.call(kind, _FILL, Array(kind), Array(kind))]


def box(site: Site) -> list[Instruction] | None:
    """A struct is its own box; `unbox.any` copies. Boxes of structs can't be compared."""
    if not site.program.is_struct(site.operand):
        return None
    if site.operand.name == _NULLABLE:
        return site.refuse(f"a box of the nullable `{site.operand.arguments[0]}`", "test `HasValue`, and box the value")
    if site.part.op == "box":
        if site.program.find(_COMPARED) is None:
            return []
        remedy = "compare its fields in a method of your own"
        return site.refuse(f"a box of the struct `{site.operand}` in a program that calls `object.Equals`", remedy)
    cast = site.makes(("castclass", site.operand))
    return cast if site.part.op == "unbox" else [*cast, _copy(site, site.operand)]


def add_methods(program: Program, made: ClassDef) -> None:
    """Adds the methods that make, copy, assign and clear the objects of a struct."""
    line = made.line
    if not made.is_library:
        program.report.note(line, "structs", f"`struct {made.type}`: a class; its objects are copied where the value would be")
    if not any(method.name == ".ctor" and not method.parameters for method in made.methods):
        made.methods.append(constructor(line, [], [*_new_fields(program, made, line), Instruction("ret", None, line)]))
    fields = [FieldRef(made.type, part.name, part.type) for part in made.fields if not part.is_static]
    made.methods.append(_method(made, _ASSIGN, VOID, [Variable(made.type)], _assign_code(program, fields, line)))
    copy = [_new(made.type, line), Instruction("dup"), Instruction("ldarg", 0), _assign(made.type, line), Instruction("ret")]
    made.methods.append(_method(made, _COPY, made.type, [], copy))
    clear = [Instruction("ldarg", 0), _new(made.type, line), _assign(made.type, line), Instruction("ret")]
    made.methods.append(_method(made, _CLEAR, VOID, [], clear))
    made.methods.append(_fill(made))


def _method(made: ClassDef, name: str, returned: Type, parameters: list[Variable], code: list[Instruction]) -> Method:
    return Method(name, returned, parameters, frozenset(("public", "instance")), made.line, code=code)


def _assign_code(program: Program, fields: list[FieldRef], line: int) -> list[Instruction]:
    code: list[Instruction] = []
    for field in fields:
        if program.is_struct(field.type):
            code += [Instruction("ldarg", 0), Instruction("ldfld", field), Instruction("ldarg", 1), Instruction("ldfld", field)]
            code.append(_assign(field.type, line))
        else:
            code += [Instruction("ldarg", 0), Instruction("ldarg", 1), Instruction("ldfld", field), Instruction("stfld", field)]
    return [*code, Instruction("ret")]


def _fill(made: ClassDef) -> Method:
    """Returns the method that gives each element of an array an object."""
    code = [
        Instruction("ldc.i4", 0), Instruction("stloc", 0), Instruction("br", "TEST"),
        Instruction("ldarg", 0, labels=["NEXT"]), Instruction("ldloc", 0), _new(made.type, made.line), Instruction("stelem.ref"),
        Instruction("ldloc", 0), Instruction("ldc.i4", 1), Instruction("add"), Instruction("stloc", 0),
        Instruction("ldloc", 0, labels=["TEST"]), Instruction("ldarg", 0), Instruction("ldlen"), Instruction("conv.i4"),
        Instruction("blt", "NEXT"), Instruction("ldarg", 0), Instruction("ret"),
    ]
    kind = Array(made.type)
    flags = frozenset(("public", "static"))
    return Method(_FILL, kind, [Variable(kind)], flags, made.line, code=code, locals=[Variable(INT32)])


RULES = {name: load for name in ("ldloc", "ldarg", "ldfld", "ldsfld")}
RULES |= {name: store for name in ("stloc", "starg", "stfld", "stsfld")}
RULES |= {name: address for name in ("ldloca", "ldarga", "ldflda", "ldsflda", "ldelema")}
RULES |= {name: indirect for name in ("ldobj", "stobj", "initobj")}
RULES |= {name: element for name in ("ldelem", "ldelem.ref", "stelem", "stelem.ref")}
RULES |= {"newarr": array, "box": box, "unbox": box, "unbox.any": box}
