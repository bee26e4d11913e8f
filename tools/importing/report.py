"""What the importer reports to its user: counts of changes, notes on changes of meaning, refusals; each of the last two with a line."""

from collections import Counter
from dataclasses import dataclass


class ListingError(Exception):
    """A listing that can't be read on: its line and what is wrong there."""

    def __init__(self, line: int, message: str):
        super().__init__(message)
        self.line = line
        self.message = message


@dataclass(frozen=True, order=True)
class Remark:
    """A sentence about a line of the listing."""

    line: int
    text: str


class Report:
    """Collects what is reported at the end. Remarks that are equal are kept once."""

    def __init__(self) -> None:
        self.changes: Counter[str] = Counter()
        self.notes: set[Remark] = set()
        self.refusals: set[Remark] = set()

    def count(self, kind: str, times: int = 1) -> None:
        """Counts changes of spelling, which keep the meaning."""
        self.changes[kind] += times

    def note(self, line: int, kind: str, text: str) -> None:
        """Counts a change that means more than spelling, and says what it means."""
        self.changes[kind] += 1
        self.notes.add(Remark(line, text))

    def refuse(self, line: int, what: str, remedy: str) -> None:
        """Records that `what` has no counterpart, and what to write in C# instead."""
        self.refusals.add(Remark(line, f"{what}: {remedy}"))

    def is_refused(self, line: int) -> bool:
        """Whether something on this line is refused."""
        return any(remark.line == line for remark in self.refusals)

    def lines(self, name: str) -> list[str]:
        """Returns what is to be printed about the listing `name`."""
        if self.refusals:
            lines = [f"{name}:{remark.line}: {remark.text}" for remark in sorted(self.refusals)]
            return lines + [f"{name}: refused: {len(self.refusals)} without a counterpart"]
        lines = [f"{name}:{remark.line}: {remark.text}" for remark in sorted(self.notes)]
        counts = "; ".join(f"{kind} {times}" for kind, times in self.changes.most_common())
        summary = f"{name}: {sum(self.changes.values())} changes of {len(self.changes)} kinds"
        lines.append(f"{summary}: {counts}" if counts else summary)
        lines.append(f"{name}: nothing is proved of this translation; `cilvm check` judges the result")
        return lines
