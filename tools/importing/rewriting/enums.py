"""Enums: their integer type, which the writer puts in place of them, and the classes that hold initial bytes go (ECMA-335 II.14.3)."""

from ..program import Program

_DATA = "<PrivateImplementationDetails>"


def rewrite(program: Program) -> None:
    """Counts the enums and constants, which have no storage, and takes the constants out."""
    for made in program.listing.classes:
        if program.is_enum(made.type) and not made.is_library:
            program.report.count("enums")
        constants = [part for part in made.fields if part.is_constant]
        if constants:
            program.report.count("constants", len(constants))
        made.fields = [part for part in made.fields if not part.is_constant]


def is_data(name: str) -> bool:
    """Whether a class is one in which compilers keep the bytes of array initialisers."""
    return name.startswith(_DATA)


def remove(program: Program) -> None:
    """Takes the classes of enums and of initial bytes out."""
    for made in list(program.listing.classes):
        if is_data(made.type.name) or program.is_enum(made.type):
            made.fields = [part for part in made.fields if program.is_enum(made.type)]
            program.listing.classes.remove(made)
