"""The entry point: a static method without parameters that returns nothing (ECMA-335 II.15.4.1.2).

A `Main` of another form is called by one that the importer adds, with an empty array of arguments; so is one that the program calls too,
where something is to be done first. What `Main` returns is dropped: the
program's status says how its threads ended.
"""

from ..program import Program
from ..tree import ClassDef, Instruction, Method
from ..types import INT32, OBJECT, STRING, VOID, Array, Class, MethodRef

_CLASS = Class(None, "Importer.Program")


def rewrite(program: Program, first: list[Instruction]) -> None:
    """Gives the program one entry point of the profile's form, which begins with the instructions `first`."""
    entries = [(owner, method) for owner, method in program.listing.methods() if method.is_entry]
    if len(entries) != 1:
        line = entries[1][1].line if entries else 1
        program.report.refuse(line, f"{len(entries)} entry points", "write one static method `Main`, and compile a program, not a library")
        return
    owner, method = entries[0]
    wanted = owner.method_ref(method)
    is_called = any(part.operand == wanted for _, other in program.listing.methods() for part in other.code)
    if not method.parameters and method.returned == VOID and not (first and is_called):
        method.code = [*(_at(part, method.line) for part in first), *method.code]
        return
    if [part.type for part in method.parameters] not in ([], [Array(STRING)]) or method.returned not in (VOID, INT32):
        program.report.refuse(method.line, "this form of `Main`", "write `static void Main()`")
        return
    _report_meaning(program, method)
    program.add(_class(wanted, [*first], method))
    method.is_entry = False


def _at(part: Instruction, line: int) -> Instruction:
    return Instruction(part.op, part.operand, line)


def _report_meaning(program: Program, method: Method) -> None:
    if method.parameters:
        program.report.note(method.line, "`Main` with arguments", "`Main(string[])`: called with an empty array")
    if method.returned != VOID:
        program.report.note(method.line, "`Main` with a status", "`int Main`: the returned status is dropped")


def _class(wanted: MethodRef, first: list[Instruction], method: Method) -> ClassDef:
    """Returns a class with a `Main` that calls the listing's."""
    line = method.line
    code = [*first]
    if wanted.parameters:
        code += [Instruction("ldc.i4", 0, line), Instruction("newarr", STRING, line)]
    code.append(Instruction("call", wanted, line))
    if wanted.returned != VOID:
        code.append(Instruction("pop", None, line))
    code.append(Instruction("ret", None, line))
    made = ClassDef(_CLASS, frozenset(("public",)), line, OBJECT, is_after_listing=True)
    main = Method("Main", VOID, [], frozenset(("public", "hidebysig", "static")), line, code=code, is_entry=True)
    made.methods.append(main)
    return made
