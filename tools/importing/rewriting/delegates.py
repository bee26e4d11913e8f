"""Delegates: an abstract class with the method `Invoke`, and a class below it for each method that a delegate is made of (ECMA-335 II.14.6).

A lambda is a method of a class of the compiler, so it is no other case. Delegates can't be combined.
"""

from ..library import instructions
from ..program import Program
from ..site import Site
from ..stack_types import Function
from ..tree import ClassDef, Field, Instruction, Method, Variable, constructor
from ..types import OBJECT, VOID, Class, FieldRef, MethodRef, Type

_PUBLIC = frozenset(("public",))
_ASYNCHRONOUS = frozenset(("BeginInvoke", "EndInvoke"))


def drop_asynchronous(program: Program) -> None:
    """Takes `BeginInvoke` and `EndInvoke` out, which compilers give every delegate; a call of one is refused."""
    for owner, method in list(program.listing.methods()):
        if program.is_delegate(owner.type) and method.name in _ASYNCHRONOUS:
            owner.methods.remove(method)
        for part in instructions(method.code):
            if isinstance(part.operand, MethodRef) and part.operand.name in _ASYNCHRONOUS:
                program.report.refuse(part.line, f"`{part.operand}`", "start a thread")


def rewrite(program: Program) -> None:
    """Turns the classes of delegates into abstract classes."""
    for made in program.listing.classes:
        if program.is_delegate(made.type):
            make_abstract(program, made)


def make_abstract(program: Program, made: ClassDef) -> None:
    """Gives a class of delegates an empty constructor and an abstract `Invoke`, and nothing else."""
    if not made.is_library:
        program.report.count("delegates")
    made.flags = made.flags | {"abstract"}
    base = MethodRef(OBJECT, ".ctor", VOID, (), True)
    start = constructor(made.line, [], [Instruction("ldarg", 0), Instruction("call", base), Instruction("ret")])
    invoke = [method for method in made.methods if method.name == "Invoke"]
    for method in invoke:
        method.flags = frozenset(("public", "virtual", "newslot", "abstract", "instance"))
        method.implementation = frozenset(("cil", "managed"))
    made.methods = [start, *invoke]


def function(site: Site) -> list[Instruction]:
    """`ldftn` pushes nothing: the constructor that follows knows the method. `ldvirtftn` takes the object that `dup` made for it."""
    if site.next_op != "newobj":
        return site.refuse("the address of a method", "make a delegate of it")
    return [] if site.part.op == "ldftn" else site.makes("pop")


def create(site: Site) -> list[Instruction] | None:
    """Rewrites `newobj` of a delegate."""
    wanted: MethodRef = site.operand
    if not site.stack or not isinstance(site.top(), Function) or not site.program.is_delegate(wanted.owner):
        return None
    site.count("delegates made of methods")
    kind = _class_of(site, wanted.owner, site.top())
    return [site.make("newobj", MethodRef(kind, ".ctor", VOID, (OBJECT,), True))]


def _class_of(site: Site, delegate: Type, function_type: Function) -> Class:
    """Makes the class of delegates of one method, once."""
    method = function_type.method
    suffix = "virtual" if function_type.is_virtual else ""
    kind = Class(None, f"{delegate}/{method}{suffix}")
    if site.program.find(kind) is None:
        site.program.add(_delegate_of(site.program, kind, delegate, function_type, site.part.line))
    return kind


def _delegate_of(program: Program, kind: Class, delegate: Type, function_type: Function, line: int) -> ClassDef:
    method = function_type.method
    target = FieldRef(kind, "target", method.owner)
    made = ClassDef(kind, _PUBLIC, line, delegate, is_after_listing=True)
    start = [Instruction("ldarg", 0), Instruction("call", MethodRef(delegate, ".ctor", VOID, (), True))]
    if method.is_instance:
        made.fields.append(Field("target", method.owner, _PUBLIC, line))
        cast = [Instruction("ldarg", 0), Instruction("ldarg", 1), Instruction("castclass", method.owner)]
        start += [*cast, Instruction("stfld", target)]
    made.methods.append(constructor(line, [Variable(OBJECT)], [*start, Instruction("ret")]))
    invoke = program.find(delegate).methods[-1]
    load = [Instruction("ldarg", 0), Instruction("ldfld", target)] if method.is_instance else []
    load += [Instruction("ldarg", number) for number in range(1, len(invoke.parameters) + 1)]
    code = [*load, Instruction("callvirt" if function_type.is_virtual else "call", method), Instruction("ret")]
    parameters = [Variable(part.type) for part in invoke.parameters]
    flags = frozenset(("public", "virtual", "instance"))
    made.methods.append(Method("Invoke", invoke.returned, parameters, flags, line, code=code))
    return made


RULES = {"ldftn": function, "ldvirtftn": function, "newobj": create}
