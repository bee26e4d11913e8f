"""What the program `cilvm` prints of a run, over the library: for the tests."""
from cilvm import MOST_THREADS, Code

#: The exceptions whose class is not named as their code.
NAMES = {
    Code.TOO_MANY_THREADS: "System.OutOfMemoryException",
    Code.SYNCHRONIZATION_LOCK: "System.Threading.SynchronizationLockException",
    Code.THREAD_STATE: "System.Threading.ThreadStateException",
}
FIRST_FAULT, LAST_FAULT = Code.NULL_REFERENCE, Code.THREAD_STATE


def report_name(code):
    """What a trace calls a report, or a run an end."""
    if FIRST_FAULT <= code <= LAST_FAULT:
        return NAMES.get(code) or f"System.{code.name.title().replace('_', '')}Exception"
    return code.name.lower().replace("_", "-")


def items_of(schedule):
    """The events of a schedule's text: a letter, a thread, and how often."""
    for word in schedule.split():
        name, _, times = word.partition("*")
        yield name[0], int(name[1:] or 0), int(times or 1)


def do_events(machine, schedule):
    """Does the events of a schedule's text one by one, and returns their reports."""
    calls = {"s": machine.step, "a": machine.ack, "g": lambda thread: machine.gc()}
    return [calls[letter](thread) for letter, thread, times in items_of(schedule) for _ in range(times)]


def limits_of_words(words):
    """The limits that the words of a command name."""
    names = {"--words": "words", "--max-words": "max_words", "--budget": "budget", "--depth": "depth"}
    return {names[word]: int(words[index + 1]) for index, word in enumerate(words) if word in names}


def ends_of(machine):
    """The lines of how threads stand, and the status of the program."""
    codes = [(thread, machine.end_of(thread)) for thread in range(MOST_THREADS)]
    lines = [f"thread {thread}: {'live' if code == Code.RAN else report_name(code)}" for thread, code in codes if code != Code.ABSENT]
    early = any(code not in (Code.RAN, Code.ABSENT, Code.DONE) for _, code in codes)
    return lines, 4 if machine.live() else 3 if early else 0


def outcome(machine):
    """Both outputs of the program and its status, as a file of expectations has them."""
    lines, status = ends_of(machine)
    return machine.printed() + "".join(f"{it}\n" for it in ["--- err", *lines, f"--- status {status}"]).encode()
