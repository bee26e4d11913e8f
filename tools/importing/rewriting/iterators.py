"""Iterators (`yield`): the class that the compiler made for one, without its method `Reset`.

The compiler gives it the method since `IEnumerator` wants one; all that it does is throw. `foreach` does not call it, and the importer's
`IEnumerator` does not have it, so a program that calls it is refused there.
"""

from ..program import Program
from ..tree import Instruction, Method

_NAME = "Reset"


def rewrite(program: Program) -> None:
    """Takes the method `Reset` out of the classes of iterators."""
    for owner in program.listing.classes:
        kept = [method for method in owner.methods if not _only_throws(method)]
        if len(kept) < len(owner.methods):
            program.report.count("iterators")
            owner.methods = kept


def _only_throws(method: Method) -> bool:
    """Whether this is a `Reset` with nothing but a throw."""
    code = [part for part in method.code if isinstance(part, Instruction)]
    return method.name == _NAME and len(code) == len(method.code) and [part.op for part in code] == ["newobj", "throw"]
