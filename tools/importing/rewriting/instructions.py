"""Applies the rules of the rewritings to the instructions of every method."""

from copy import deepcopy

from ..program import Program
from ..report import ListingError
from ..site import Code, Site
from ..tree import ClassDef, Instruction, Method
from ..types import Type
from . import addresses, array_initializers, boxes, casts, delegates, enums, object_members, plain, rectangles, small_integers, structs, unsigned

# The first rule of an instruction that has an answer counts.
_MODULES = (structs, addresses, rectangles, delegates, array_initializers, object_members, boxes, unsigned, small_integers, plain)
_RULES: dict[str, list] = {}
for _module in _MODULES:
    for _op, _rule in _module.RULES.items():
        _RULES.setdefault(_op, []).append(_rule)


def rewrite(program: Program) -> None:
    """Rewrites the methods of all classes, those that the rules add included."""
    done = 0
    while done < len(program.listing.classes):
        owner = program.listing.classes[done]
        done += 1
        for method in list(owner.methods):
            _rewrite_method(program, owner, method)
        if program.is_struct(owner.type) and not enums.is_data(owner.type.name):
            structs.add_methods(program, owner)


def _rewrite_method(program: Program, owner: ClassDef, method: Method) -> None:
    if not method.code:
        return
    try:
        code = Code(program, owner, method)
    except ListingError as error:
        program.report.refuse(error.line, error.message, "compile the program anew")
        return
    line = method.code[0].line
    made = structs.prologue(code, line) + addresses.prologue(code, line)
    after: dict[int, list[Instruction]] = {}
    parts = [_one(Site(code, index), after) for index in range(len(method.code)) if code.analysis.stacks[index] is not None]
    reached = [index for index, stack in enumerate(code.analysis.stacks) if stack is not None]
    method.code = _join(made, [(method.code[index], part + after.get(index, [])) for index, part in zip(reached, parts)])


def _one(site: Site, after: dict[int, list[Instruction]]) -> list[Instruction]:
    """Returns the translation of an instruction; what is to follow earlier ones goes to `after`."""
    before = _before(site, after)
    for rule in _RULES.get(site.part.op, ()):
        found = rule(site)
        if found is not None:
            return before + found
    return [*before, site.part]


def _before(site: Site, after: dict[int, list[Instruction]]) -> list[Instruction]:
    """Returns the casts and cuts that the value on the top of the stack needs before this instruction."""
    made: list[Instruction] = []
    stored = small_integers.stored_type(site)
    if stored is not None and small_integers.needs_cut(site, site.entry(), stored):
        site.note("values cut to size", f"stored as `{stored}`: cut to its size before")
        made += small_integers.cut(site, site.program.underlying(stored))
    if stored is not None and casts.needs_cast(site, site.entry(), stored):
        made += _cast(site, stored)
    for depth, (entry, kind) in enumerate(casts.uses(site)):
        if depth:
            _deeper(site, entry, kind, after)
        elif stored is None and casts.needs_cast(site, entry, kind):
            made += _cast(site, kind)
    return made


def _cast(site: Site, kind: Type) -> list[Instruction]:
    site.count("casts to interfaces")
    return site.makes(("castclass", kind))


def _deeper(site: Site, entry, kind: Type, after: dict[int, list[Instruction]]) -> None:
    """Adds what a value below the top of the stack needs after the instructions that push it."""
    if casts.needs_cast(site, entry, kind):
        extra = _cast(site, kind)
    elif small_integers.needs_cut(site, entry, kind):
        site.note("values cut to size", f"handed on as `{kind}`: cut to its size before")
        extra = small_integers.cut(site, site.program.underlying(kind))
    else:
        return
    for index in entry.producers:
        if (index, kind) not in site.code.converted:
            site.code.converted.add((index, kind))
            after.setdefault(index, []).extend(deepcopy(extra))


def _join(first: list[Instruction], groups: list[tuple[Instruction, list[Instruction]]]) -> list[Instruction]:
    """Joins the rewritten instructions; the labels of one that became nothing go to the next."""
    code, labels = list(first), []
    for old, new in groups:
        labels += old.labels
        for part in new:
            if part is not old:
                part.line = part.line or old.line
            part.labels, labels = labels, []
            code.append(part)
    if labels:
        code.append(Instruction("nop", None, code[-1].line if code else 0, labels))
    return code


