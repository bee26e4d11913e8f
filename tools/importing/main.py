"""The command: `tools/import LISTING > FILE.il`."""

import sys
from pathlib import Path

from .library import Binder
from .names import Names
from .program import Program
from .reader import read
from .report import ListingError, Report
from .rewriting import (
    delegates, entry_point, enums, finally_blocks, generics, instructions, interfaces, iterators, object_members, small_integers,
    static_initializers, structs,
)
from .shaking import drop_unused, shake
from .spelling import Spelling, Unspellable
from .tokens import tokenize
from .tree import Instruction
from .writer import Writer

USAGE = """usage: tools/import LISTING > FILE.il

Turns what `monodis` prints of a program in C# into a source of the text profile.
Standard error lists the changes, or all that has no counterpart; then the status is 1
and there is no output. docs/FROM_CSHARP.md has more."""
REFUSED, USAGE_ERROR, UNREADABLE = 1, 2, 5


def main(arguments: list[str]) -> int:
    """Runs the command and returns its status."""
    if arguments in (["-h"], ["--help"]):
        print(USAGE)
        return 0
    if len(arguments) != 1 or arguments[0].startswith("-"):
        print(USAGE, file=sys.stderr)
        return USAGE_ERROR
    name = arguments[0]
    try:
        listing = Path(name).read_bytes()
    except OSError as error:
        print(f"tools/import: {name}: {error.strerror}", file=sys.stderr)
        return UNREADABLE
    report = Report()
    kind = _other_kind(name, listing)
    if kind is not None:
        report.refuse(1, *kind)
    result = None if kind else import_listing(listing, report)
    print("\n".join(report.lines(name)), file=sys.stderr)
    if result is None:
        return REFUSED
    sys.stdout.buffer.write(result)
    return 0


def _other_kind(name: str, content: bytes) -> tuple[str, str] | None:
    """Returns what a file is that is no listing, and what to do with it."""
    if content.startswith(b"MZ"):
        return "an executable", "hand over what `monodis` prints of it"
    if name.endswith(".cs"):
        return "a source in C#", "compile it with `mcs`, and hand over what `monodis` prints of the executable"
    return None


def import_listing(listing: bytes, report: Report) -> bytes | None:
    """Returns the source for a listing, None where something in it has no counterpart; the report then says what."""
    text = listing.decode("utf-8-sig", "replace")
    try:
        if listing.isascii() and is_profile(text):
            return listing
        result = _translate(text, report)
    except ListingError as error:
        report.refuse(error.line, error.message, "hand over the whole listing that `monodis` prints")
        return None
    return None if report.refusals else result.encode("ascii")


def is_profile(text: str) -> bool:
    """Whether a text is a source of the profile already: its tree, written without a change, has the same tokens."""
    program = Program(read(text, Report()), Report())
    try:
        written = Writer(program, Spelling(program, is_strict=True)).write()
    except Unspellable:
        return False
    return [token.text for token in tokenize(written)] == [token.text for token in tokenize(text)]


def _translate(text: str, report: Report) -> str:
    program = Program(read(text, report), report)
    iterators.rewrite(program)
    delegates.drop_asynchronous(program)
    binder = Binder(program)
    binder.bind()
    shake(program)
    finally_blocks.rewrite(program)
    generics.rewrite(program, binder)
    enums.rewrite(program)
    small_integers.note_declarations(program)
    delegates.rewrite(program)
    interfaces.rewrite(program)
    object_members.rewrite(program)
    calls = [Instruction("call", wanted) for wanted in static_initializers.rewrite(program)]
    entry_point.rewrite(program, structs.static_fields(program) + calls)
    instructions.rewrite(program)
    enums.remove(program)
    object_members.extend(program)
    if report.refusals:
        return ""
    drop_unused(program, Spelling(program).lower)
    spelling = Spelling(program)
    result = Writer(program, spelling).write()
    _count_names(report, spelling.classes, spelling.members, spelling.labels)
    return result


def _count_names(report: Report, *names: Names) -> None:
    changed = sum(part.changed for part in names)
    if changed:
        report.count("names made legal", changed)
