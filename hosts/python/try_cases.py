"""Runs the test cases of `conformance` by the library: each source of a `check`, `run`, `replay` or `trace` is opened, and its schedule is done event
by event and once more by its text. The number of a refusal and what explains it, what is printed, how threads end, the reports and the words in use
have to be what the test case says.

usage: try_cases.py

It prints how many test cases it ran, and each difference; the status is 1 where there is one. CILVM_LIBRARY may name the library.
"""
import glob
import os
import re
import sys
import typing

import cilvm
from cilvm import Code, Machine, Refused
from texts import do_events, ends_of, limits_of_words, report_name

DATA = os.path.join(os.path.dirname(os.path.abspath(__file__)), "../../crates/conformance/data")
COMMANDS = ("check", "run", "replay", "trace")
#: Options with a value.
VALUED = ("--schedule", "--words", "--max-words", "--budget", "--depth")
#: An item of a schedule, and the events that one may have.
ITEM = re.compile(rb"(g|[sa](\d|1[0-5]))(\*[1-9]\d*)?")
MOST_EVENTS = 1_000_000
#: Groups that are no sources, only command lines, bounds that the library counts otherwise, or files that the library does not read.
LEFT_OUT = ("grammar.txt", "command_line.txt", "output.txt", "records.txt")
#: The letters of reports.
LETTERS = {"r": "ran", "b": "blocked", "a": "absent", "k": "acked", "n": "nothing-posted", "o": "worked", "w": "waiting"}


class Case(typing.NamedTuple):
    """A test case: its name, the words of its command, its sections in order, and the lines of each."""

    name: str
    words: list
    sections: dict

    def texts(self, section):
        return self.sections.get(section, [])


def text_of(lines):
    """The bytes of a text, with its lines that expand to many."""
    found = []
    for line in lines:
        many = re.match(r"(@@?)(\d+) ?(.*)", line)
        if not many:
            found.append(line + "\n")
            continue
        end = "\n" if many[1] == "@" else ""
        found.extend(many[3].replace("#+1", str(i + 1)).replace("#", str(i)) + end for i in range(int(many[2])))
    return "".join(found).encode("latin-1")


def read_cases(path):
    """The test cases of a file."""
    with open(path, encoding="latin-1", newline="\n") as file:
        parts = file.read().split("\n=== ")[1:]
    for part in parts:
        name, *lines = part.rstrip("\n").split("\n")
        words = [quoted or plain for quoted, plain in re.findall(r"'([^']*)'|(\S+)", lines[0])] if lines else []
        if "''" in lines[0]:
            words = [it for it in re.findall(r"'[^']*'|\S+", lines[0])]
            words = [it.strip("'") for it in words]
        sections, into = {}, []
        for line in lines[1:]:
            if line.startswith("--- "):
                head, _, rest = line[len("--- ") :].partition(" ")
                into = sections.setdefault(head, [])
                if rest:
                    into.append(rest)
            else:
                into.append(line)
        yield Case(name, words[1:], sections)


def read_data(name):
    with open(os.path.join(DATA, name), "rb") as file:
        return file.read()


def expanded(reports):
    """The reports of a test case, one a word."""
    for word in reports.split():
        name, _, times = word.partition("*")
        yield from [LETTERS.get(name, name)] * int(times or 1)


def case_name(code):
    """What a test case calls a report."""
    text = report_name(code)
    if text in LETTERS.values():
        return text
    return f"[{''.join(it.title() for it in code.name.split('_'))}]"


def files_of(words):
    """The file names among the words of a command."""
    found, skips = [], False
    for word in words[2:]:
        if skips or word.startswith("--"):
            skips = word in VALUED and not skips
        else:
            found.append(word)
    return found


def limits_of(case):
    limits = limits_of_words(case.words)
    for line in case.texts("limits"):
        words, budget, depth, *most = map(int, line.split())
        limits = {"words": words, "budget": budget, "depth": depth, "max_words": most[0] if most else words}
    return limits


def expected_bytes(case):
    """What the program prints in a test case; None where the whole outcome stands in a file."""
    lines = case.texts("out")
    if case.words[1] == "trace":
        lines = lines[lines.index("") + 1 :] if "" in lines else []
    return text_of(lines)


class Difference(Exception):
    pass


def expect(what, found, expected):
    if found != expected:
        raise Difference(f"{what}: {found!r}, and not {expected!r}")


def expect_refusal(case, refused, names):
    """Compares a refusal with what a test case says, and its text where the case has one."""
    lines = case.texts("err")
    expect("refusal", f"error {refused.number}", lines[0] if lines else "")
    if "--explain" in case.words:
        text = "".join(f"{it}\n" for it in lines[1:])
        # (what a file is by its name, and what `--schedule` takes, only the program can say)
        if re.search(r"this is (a source in C#|a compiled program|the name of a file)", text):
            return
        for name, own in names:
            text = re.sub(rf"^{re.escape(name)}:", f"{own}:", text, flags=re.M)
        expect("explanation", refused.text.encode("utf-8").decode("latin-1"), text)


def expect_run(case, machine, reports):
    """Compares what a run left with what a test case says."""
    lines, status = ends_of(machine)
    # (lines that explain how threads ended come after those of all threads)
    err = [it for it in case.texts("err") if re.match(r"thread \d+: ", it)][: len(lines)]
    if not any(it.startswith("= ") for it in case.texts("out")):
        expect("printed", machine.printed(), expected_bytes(case))
        expect("ends", lines, err)
        expect("status", status, int(case.texts("status")[0]) if case.texts("status") else 0)
    if "reports" in case.sections and reports is not None:
        expect("reports", [case_name(it) for it in reports], list(expanded(" ".join(case.texts("reports")))))
    if "used" in case.sections:
        old, new = machine.used()
        used = [int(it) for it in case.texts("used")[0].split()]
        expect("words", [old, new], used if len(used) == 2 else [*used, 0])


def try_case(case, source, schedule, names):
    """Runs a test case by the library."""
    if case.words[1] == "check":
        try:
            Machine(source).close()
        except Refused as refused:
            expect("number", cilvm.check(source), refused.number)
            expect_refusal(case, refused, names)
            return
        # (notes on an accepted source are the program's)
        expect("answer", [it for it in case.texts("err")[:1] if ": note: " not in it], [])
        return
    for by_text in (False, True):
        try:
            with Machine(source, **limits_of(case)) as machine:
                count, code = (0, Code.RAN) if not by_text else machine.run(schedule)
                reports = None if by_text else events_done(machine, schedule)
                expect("code", code, Code.RAN)
                expect_run(case, machine, reports)
        except Refused as refused:
            expect_refusal(case, refused, names)


def events_done(machine, schedule):
    """The reports of a schedule's events one by one; of a text that is refused the library's own refusal."""
    words = [it for it in re.split(rb"[\t\n\r ]", schedule) if it]
    if all(ITEM.fullmatch(it) for it in words) and sum(int(it.partition(b"*")[2] or 1) for it in words) <= MOST_EVENTS:
        return do_events(machine, schedule.decode("ascii"))
    machine.run(schedule)
    raise Difference("the library took a schedule that is none")


def inputs_of(case):
    """The source, the schedule and the names that explanations have for both; None where the program does not come to them."""
    files = files_of(case.words)
    if "source" in case.sections:
        source = text_of(case.texts("source"))
    elif files and os.path.isfile(os.path.join(DATA, files[0])):
        source = read_data(files[0])
    else:
        return None
    names = [(files[0], "source")] if files else []
    if case.words[1] == "run":
        if "--schedule" not in case.words:
            return None
        return source, case.words[case.words.index("--schedule") + 1].encode("latin-1"), [*names, ("--schedule", "schedule")]
    if case.words[1] == "check":
        return source, b"", names
    if "schedule" in case.sections:
        schedule = text_of(case.texts("schedule"))
    elif len(files) > 1 and os.path.isfile(os.path.join(DATA, files[1])):
        schedule = read_data(files[1])
    else:
        return None
    return source, schedule, [*names, (files[1], "schedule")] if len(files) > 1 else names


def is_run_by_the_program(case):
    """Whether the program reads the source: its command line and its files are good."""
    err = case.texts("err")
    usage = case.texts("status")[:1] == ["2"] and err[:1] != ["error 401"]
    return len(case.words) > 1 and case.words[1] in COMMANDS and not usage and case.texts("status")[:1] != ["5"]


def main():
    tried, differ = 0, 0
    for path in sorted(glob.glob(f"{DATA}/*.txt")):
        if os.path.basename(path) in LEFT_OUT:
            continue
        for case in read_cases(path):
            inputs = inputs_of(case) if is_run_by_the_program(case) else None
            if inputs is None:
                continue
            tried += 1
            try:
                try_case(case, *inputs)
            except Difference as difference:
                differ += 1
                print(f"{os.path.basename(path)}: {case.name}: {str(difference)[:600]}")
    print(f"{tried} test cases by the library, {differ} differ")
    return 1 if differ or not tried else 0


if __name__ == "__main__":
    sys.exit(main())
