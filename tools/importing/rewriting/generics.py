"""Generic classes and methods: one class, or method, for each instance (ECMA-335 II.9).

The first instance is on the lines of the definition, others of a class are after the last line and others of a method at the end of
its class. An instance has static fields of its own, as in .NET.
"""

from collections import Counter
from copy import deepcopy
from dataclasses import replace

from ..library import Binder, instructions
from ..program import Program
from ..report import ListingError
from ..tree import ClassDef, Method
from ..types import Class, FieldRef, MethodRef, Parameter, Type, map_operand, map_type

MOST_INSTANCES = 1000


def rewrite(program: Program, binder: Binder) -> None:
    """Replaces generic definitions by their instances, and lets later rewritings ask for instances of the library's classes."""
    instances = _Instances(program)
    instances.run()
    program.helpers = lambda kind: instances.add_helper(binder, kind)


def _number_parameters(names: list[str], of_method: bool):
    """Returns a change that gives generic parameters their numbers."""

    def number(kind: Type) -> Type:
        if isinstance(kind, Parameter) and kind.of_method == of_method and kind.key in names:
            return Parameter(of_method, names.index(kind.key))
        return kind

    return number


def _substitute(arguments: tuple[Type, ...], of_method: bool):
    """Returns a change that puts types in place of generic parameters."""

    def change(kind: Type) -> Type:
        if isinstance(kind, Parameter) and kind.of_method == of_method and isinstance(kind.key, int) and kind.key < len(arguments):
            return arguments[kind.key]
        return kind

    return change


def change_method(method: Method, change) -> None:
    """Applies a change to every type in a method."""
    method.returned = map_type(method.returned, change)
    for variable in method.parameters + method.locals:
        variable.type = map_type(variable.type, change)
    method.overrides = [map_operand(wanted, change) for wanted in method.overrides]
    for instruction in instructions(method.code):
        instruction.operand = map_operand(instruction.operand, change)


def _change_class(made: ClassDef, change) -> None:
    made.extends = map_type(made.extends, change) if made.extends is not None else None
    made.implements = [map_type(part, change) for part in made.implements]
    for part in made.fields:
        part.type = map_type(part.type, change)
    for method in made.methods:
        change_method(method, change)


def _relabel(method: Method, suffix: str) -> None:
    """Gives a further copy of a method labels of its own, since they are not on the lines of the listing."""
    for part in instructions(method.code):
        part.labels = [label + suffix for label in part.labels]
        if part.op == "switch":
            part.operand = tuple(label + suffix for label in part.operand)
        elif isinstance(part.operand, str) and part.op != "ldstr":
            part.operand += suffix


class _Instances:
    """Makes instances until no new one is named."""

    def __init__(self, program: Program):
        self.program = program
        self.definitions: dict[str, ClassDef] = {}
        self.generic_methods: dict[Type, list[Method]] = {}
        self.pending: list[ClassDef] = []
        self.made_methods: set[tuple] = set()
        self.instances = 0
        self.copies: Counter[int] = Counter()

    def run(self) -> None:
        """Makes all instances that the program names."""
        for made in list(self.program.listing.classes):
            self._define(made)
        self.pending = list(self.program.listing.classes)
        for made in self.pending:
            self._take_generic_methods(made)
        self._visit_pending()

    def _visit_pending(self) -> None:
        while self.pending:
            self._visit(self.pending.pop(0))

    def add_helper(self, binder: Binder, kind: Class) -> None:
        """Adds a class of the library and, if it is generic, the instance that is asked for, with all that they name."""
        start = len(self.program.listing.classes)
        binder.add(kind.name)
        added = self.program.listing.classes[start:]
        for made in added:
            self._define(made)
        self.pending = [made for made in added if not made.generics]
        self._instance(kind)
        self._visit_pending()

    def _define(self, made: ClassDef) -> None:
        """Numbers the parameters of a class, and takes it out if it is generic."""
        self._number(made)
        if made.generics:
            self.definitions[made.type.name] = made
            self.program.remove(made)

    def _number(self, made: ClassDef) -> None:
        _change_class(made, _number_parameters(made.generics, False))
        for method in made.methods:
            change_method(method, _number_parameters(method.generics, True))

    def _take_generic_methods(self, made: ClassDef) -> None:
        self.generic_methods[made.type] = [method for method in made.methods if method.generics]
        made.methods = [method for method in made.methods if not method.generics]

    def _visit(self, made: ClassDef) -> None:
        """Makes the instances that a class names, and makes it name them."""
        if made.extends is not None:
            made.extends = map_type(made.extends, self._instance)
        made.implements = [map_type(part, self._instance) for part in made.implements]
        for part in made.fields:
            part.type = map_type(part.type, self._instance)
        for method in list(made.methods):
            self._visit_method(method)

    def _visit_method(self, method: Method) -> None:
        method.returned = map_type(method.returned, self._instance)
        for variable in method.parameters + method.locals:
            variable.type = map_type(variable.type, self._instance)
        method.overrides = [self._member(wanted, method.line) for wanted in method.overrides]
        for instruction in instructions(method.code):
            if isinstance(instruction.operand, (MethodRef, FieldRef)):
                instruction.operand = self._member(instruction.operand, instruction.line)
            else:
                instruction.operand = map_operand(instruction.operand, self._instance)

    def _member(self, wanted, line: int):
        """Gives a member of an instance the types of that instance."""
        owner = map_type(wanted.owner, self._instance)
        if isinstance(owner, Class) and owner.arguments:
            wanted = map_operand(wanted, _substitute(owner.arguments, False))
        wanted = map_operand(wanted, self._instance)
        if isinstance(wanted, MethodRef) and wanted.arguments:
            wanted = self._method_instance(wanted, line)
        return wanted

    def _instance(self, kind: Type) -> Type:
        """Makes the instance of a generic class, once."""
        if not isinstance(kind, Class) or not kind.arguments or kind in self.program.classes:
            return kind
        definition = self.definitions.get(kind.name)
        if definition is None:
            return kind
        self._spend(definition.line)
        made = deepcopy(replace(definition, outer=None))
        made.type, made.generics = kind, []
        _change_class(made, _substitute(kind.arguments, False))
        made.is_after_listing = definition.is_after_listing
        definition.is_after_listing = True
        self.program.report.count("instances of generic classes")
        self.program.add(made)
        self._take_generic_methods(made)
        self.pending.append(made)
        return kind

    def _method_instance(self, wanted: MethodRef, line: int) -> MethodRef:
        """Makes the instance of a generic method, once."""
        name = f"{wanted.name}<{', '.join(map(str, wanted.arguments))}>"
        change = _substitute(wanted.arguments, True)
        bound = replace(map_operand(wanted, change), name=name, arguments=())
        owner = self.program.find(bound.owner)
        for method in self.generic_methods.get(bound.owner, []):
            kinds = tuple(map_type(map_type(part.type, change), self._instance) for part in method.parameters)
            if method.name == wanted.name and len(method.generics) == len(wanted.arguments) and kinds == bound.parameters:
                self._add_method(owner, method, name, change, (bound.owner, name, kinds))
                return bound
        self.program.report.refuse(line, f"the generic method `{wanted}`", "write a method for each type")
        return bound

    def _add_method(self, owner: ClassDef, method: Method, name: str, change, key: tuple) -> None:
        if key in self.made_methods:
            return
        self._spend(method.line)
        self.made_methods.add(key)
        made = deepcopy(method)
        made.name, made.generics = name, []
        self.copies[id(method)] += 1
        made.is_copy = self.copies[id(method)] > 1
        if made.is_copy:
            _relabel(made, f"_{self.copies[id(method)]}")
        change_method(made, change)
        self.program.report.count("instances of generic methods")
        owner.methods.append(made)
        self._visit_method(made)

    def _spend(self, line: int) -> None:
        self.instances += 1
        if self.instances > MOST_INSTANCES:
            raise ListingError(line, f"more than {MOST_INSTANCES} instances of generics: one may name ever larger ones")
