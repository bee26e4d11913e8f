"""`try .. finally`: the `finally` code at each exit of the block (ECMA-335 II.19, III.3.47 `leave`, III.3.35 `endfinally`).

More than spelling: a fault in the block ends its thread, so the code of `finally` does not run then, and `lock` keeps the monitor. `catch`
has no counterpart. Where the block ends with `leave`, that copy of the code is on the lines of `finally`; other copies are on those of
their `leave`.
"""

from copy import deepcopy
from dataclasses import replace

from ..program import Program
from ..tree import Instruction, TryBlock

_REMEDIES = {
    "catch": "test before the operation that may fail: a fault ends its thread",
    "filter": "test before the operation that may fail: a fault ends its thread",
    "fault": "write `finally`",
}


def rewrite(program: Program) -> None:
    """Takes the protected blocks out of every method."""
    for _, method in program.listing.methods():
        method.code = _Flattening(program).flat(method.code)


class _Flattening:
    """Turns the code of one method into instructions alone."""

    def __init__(self, program: Program):
        self.program = program
        self.copies = 0

    def flat(self, code: list) -> list[Instruction]:
        """Returns code without protected blocks; a `leave` that remains goes to a label outside of all blocks."""
        flat: list[Instruction] = []
        for part in code:
            flat += self._block(part) if isinstance(part, TryBlock) else [part]
        return flat

    def _block(self, block: TryBlock) -> list[Instruction]:
        body = self.flat(block.body)
        for kind, line, handler in block.handlers:
            if kind == "finally":
                self._report_meaning(handler, block.line, line)
                body = self._with_copies(body, self.flat(handler), line)
            else:
                self.program.report.refuse(line, f"`{kind}`", _REMEDIES[kind])
        return body

    def _report_meaning(self, handler: list, line: int, finally_line: int) -> None:
        """Reports the meaning of a fault: of a `lock`, whose `finally` only exits a monitor, or of any other code."""
        calls = [str(part.operand) for part in handler if isinstance(part, Instruction) and part.op in ("call", "callvirt", "newobj")]
        if calls and all(name.startswith("System.Threading.Monitor.Exit") for name in calls):
            self.program.report.note(line, "`lock`", "`lock`: a fault inside keeps the monitor")
        elif calls and all(name.startswith("System.IDisposable.Dispose") for name in calls):
            self.program.report.count("`foreach` or `using` that disposes")
        else:
            self.program.report.note(finally_line, "`finally`", "`finally`: its code does not run after a fault")

    def _with_copies(self, body: list[Instruction], handler: list[Instruction], line: int) -> list[Instruction]:
        inside = {label for part in body for label in part.labels}
        found: list[Instruction] = []
        for index, part in enumerate(body):
            if part.op == "leave" and part.operand not in inside:
                at_end = index == len(body) - 1
                found += self._copy(part, handler, None if at_end else part.line)
            else:
                found.append(part)
        return found

    def _copy(self, leave: Instruction, handler: list[Instruction], line: int | None) -> list[Instruction]:
        """Returns the `finally` code in place of a `leave`, its lines replaced by `line` if there is one."""
        self.copies += 1
        names = {label: f"{label}_{self.copies}" for part in handler for label in part.labels}
        start = Instruction("nop", None, leave.line, leave.labels)
        return [start] + [self._instruction(part, names, leave, line) for part in handler]

    def _instruction(self, part: Instruction, names: dict, leave: Instruction, line: int | None) -> Instruction:
        made = replace(deepcopy(part), labels=[names[label] for label in part.labels], line=part.line if line is None else line)
        if part.op == "endfinally":
            made.op, made.operand = "leave", leave.operand
        elif isinstance(part.operand, str):
            made.operand = names.get(part.operand, part.operand)
        elif part.op == "switch":
            made.operand = tuple(names.get(label, label) for label in part.operand)
        return made
