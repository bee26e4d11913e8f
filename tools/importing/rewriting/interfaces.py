"""Interfaces: those that extend others, and methods that implement one explicitly (ECMA-335 II.12.2, II.10.3.2).

A class lists every interface that it has, since an interface lists none. Where a class implements a method explicitly, under another name,
that method of the interface gets a name of its own, and so does each method that implements it; a class that implements it by its plain
name gets a method of the new name that calls that one.
"""

from ..library import instructions
from ..program import Program
from ..tree import ClassDef, Instruction, Method, Variable
from ..types import MethodRef, Type


def rewrite(program: Program) -> None:
    """Rewrites the explicit implementations; the writer lists all interfaces of a class."""
    wanted = _explicit_implementations(program)
    if not wanted:
        return
    for owner in list(program.listing.classes):
        if not owner.is_interface:
            _implement(program, owner, wanted)
    for owner, method in program.listing.methods():
        if owner.is_interface:
            method.name = _new_name(owner.type, method.name, wanted)
        _rename_calls(method, wanted)


def _explicit_implementations(program: Program) -> set[tuple[Type, str]]:
    """Returns the interface methods that some class implements explicitly."""
    found: set[tuple[Type, str]] = set()
    for _, method in program.listing.methods():
        for part in method.overrides:
            if program.is_interface(part.owner):
                found.add((part.owner, part.name))
                program.report.count("explicit interface methods")
            else:
                program.report.refuse(method.line, f"`.override` of `{part.owner}.{part.name}`", "override the method under its own name")
    return found


def _new_name(owner: Type, name: str, wanted: set[tuple[Type, str]]) -> str:
    return f"{owner}.{name}" if (owner, name) in wanted else name


def _implement(program: Program, owner: ClassDef, wanted: set[tuple[Type, str]]) -> None:
    """Gives a class the renamed methods of its interfaces."""
    for method in [part for part in owner.methods if part.overrides]:
        first, *others = [_new_name(part.owner, part.name, wanted) for part in method.overrides]
        owner.methods += [_caller(owner, method, name) for name in others]
        _rename(program, owner, method, first)
    for kind in [part for part in owner.implements if program.is_interface(part)]:
        _bridge_all(program, owner, kind, wanted)


def _bridge_all(program: Program, owner: ClassDef, kind: Type, wanted: set[tuple[Type, str]]) -> None:
    for method in program.classes[kind].methods:
        if (kind, method.name) in wanted:
            _bridge(program, owner, kind, method, wanted)


def _rename(program: Program, owner: ClassDef, method: Method, name: str) -> None:
    old = owner.method_ref(method)
    method.name = name
    for _, other in program.listing.methods():
        for part in instructions(other.code):
            if part.operand == old:
                part.operand = owner.method_ref(method)


def _bridge(program: Program, owner: ClassDef, kind: Type, method: Method, wanted: set[tuple[Type, str]]) -> None:
    """Adds a method of the new name that calls the class's own or inherited one of the plain name, where there is no explicit one."""
    name = _new_name(kind, method.name, wanted)
    if any(part.name == name for part in owner.methods):
        return
    called = MethodRef(owner.type, method.name, method.returned, tuple(part.type for part in method.parameters), True)
    found = program.find_method(called)
    if found is not None:
        owner.methods.append(_caller(owner, found[1], name))


def _caller(owner: ClassDef, method: Method, name: str) -> Method:
    """Returns a virtual method of another name that calls this one."""
    line = method.line
    code = [Instruction("ldarg", number, line) for number in range(len(method.parameters) + 1)]
    code += [Instruction("callvirt", owner.method_ref(method), line), Instruction("ret", None, line)]
    flags = frozenset(("public", "virtual", "newslot", "instance"))
    return Method(name, method.returned, [Variable(part.type) for part in method.parameters], flags, line, code=code)


def _rename_calls(method: Method, wanted: set[tuple[Type, str]]) -> None:
    for part in instructions(method.code):
        called = part.operand
        if isinstance(called, MethodRef) and (called.owner, called.name) in wanted:
            name = _new_name(called.owner, called.name, wanted)
            part.operand = MethodRef(called.owner, name, called.returned, called.parameters, called.is_instance)
