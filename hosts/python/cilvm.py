"""cilvm as a library: a proved machine for a subset of the Common Intermediate Language, over libcilvm.so.0 by ctypes.

    machine = cilvm.Machine(source, budget=1_000_000)
    while machine.step(0) in (cilvm.Code.RAN, cilvm.Code.BLOCKED):
        pass
    print(machine.printed().decode(), machine.end_of(0).name)

A machine is used by one thread at a time. The library is looked for by its name, or at the path that CILVM_LIBRARY holds.
"""
import ctypes
import enum
import os
import threading
import typing

VERSION = 0x000100
MOST_THREADS = 16
PIECE = 1 << 16


class Code(enum.IntEnum):
    """What calls return."""

    # tools/host_codes: begin
    #: A step: the instruction was done. A run: all events were done. A thread: it is live. Any other call: it was done.
    RAN = 0
    #: A step: the thread waits for a monitor or for another thread, and used a step of its budget.
    BLOCKED = 1
    #: No such thread is live, and nothing changed. A thread: it was never started.
    ABSENT = 2
    #: An acknowledgement: the thread acknowledged the posted phase or round.
    ACKED = 3
    #: An acknowledgement: the thread had nothing to acknowledge.
    NOTHING_POSTED = 4
    #: The collector: some work was done.
    WORKED = 5
    #: The collector: it waits for a thread's acknowledgement.
    WAITING = 6
    #: The collector: the cycle is done, and its old space was freed.
    CYCLE_DONE = 7
    #: The thread ended: its first method returned.
    DONE = 16
    #: The thread ended: its budget of steps was used up.
    BUDGET = 17
    #: The thread ended: a field, an element, the length or a method of null.
    NULL_REFERENCE = 32
    #: The thread ended: an index out of the range of an array.
    INDEX_OUT_OF_RANGE = 33
    #: The thread ended: a store of an object into an array whose element type it doesn't fit.
    ARRAY_TYPE_MISMATCH = 34
    #: The thread ended: a cast of an object to a type that it doesn't fit.
    INVALID_CAST = 35
    #: The thread ended: a division or remainder by 0.
    DIVIDE_BY_ZERO = 36
    #: The thread ended: a division or remainder of the least integer by -1.
    ARITHMETIC = 37
    #: The thread ended: a checked sum, difference or product that doesn't fit, or an array of a negative length.
    OVERFLOW = 38
    #: The thread ended: an object that its heap has no room for.
    OUT_OF_MEMORY = 39
    #: The thread ended: a start of a seventeenth thread.
    TOO_MANY_THREADS = 40
    #: The thread ended: a call beyond the limit of frames.
    STACK_OVERFLOW = 41
    #: The thread ended: an enter or exit of the monitor of null.
    ARGUMENT_NULL = 42
    #: The thread ended: an exit of a monitor that it doesn't hold.
    SYNCHRONIZATION_LOCK = 43
    #: The thread ended: a start of a thread that was started before, or a join of one that was not started.
    THREAD_STATE = 44
    #: The program has printed more bytes than it may, and nothing changed.
    FULL = 253
    #: The session is closed.
    CLOSED = 254
    #: Memory of the host ran out, and nothing changed. The same call may be made again.
    NO_MEMORY = 255
    # tools/host_codes: end


class Wait(typing.NamedTuple):
    """Whom a thread waits for: the thread that holds a monitor, or one whose end is awaited."""

    is_monitor: bool
    thread: int


class Refused(Exception):
    """A source, its limits or a schedule were refused, with this number; the text explains why."""

    def __init__(self, number, text):
        super().__init__(f"error {number}\n{text}")
        self.number = number
        self.text = text


class Full(Exception):
    """The program has printed more bytes than it may, and nothing changed."""


class _Limits(ctypes.Structure):
    _fields_ = [("words", ctypes.c_uint32), ("max_words", ctypes.c_uint32), ("budget", ctypes.c_uint32), ("depth", ctypes.c_uint32), ("printed", ctypes.c_size_t)]


def _load():
    """Loads the library, and declares its calls."""
    library = ctypes.CDLL(os.environ.get("CILVM_LIBRARY", "libcilvm.so.0"))
    handle, size, u32, u8 = ctypes.c_void_p, ctypes.c_size_t, ctypes.c_uint32, ctypes.c_uint8
    u32_out, u64_out = ctypes.POINTER(u32), ctypes.POINTER(ctypes.c_uint64)
    calls = {
        "version": [],
        "check": [ctypes.c_char_p, size],
        "new": [ctypes.POINTER(handle)],
        "open": [handle, ctypes.c_char_p, size, ctypes.POINTER(_Limits)],
        "why": [handle, size, ctypes.c_char_p, size],
        "step": [handle, u8],
        "steps": [handle, u8, u32, u32_out],
        "ack": [handle, u8],
        "gc": [handle],
        "run": [handle, ctypes.c_char_p, size, u64_out],
        "read": [handle, size, ctypes.c_char_p, size],
        "end_of": [handle, u8],
        "live": [handle],
        "used": [handle, u32_out],
        "waits": [handle, u8],
        "close": [handle],
    }
    for name, types in calls.items():
        call = getattr(library, f"cilvm_{name}")
        call.argtypes = types
        call.restype = size if name in ("why", "read") else u32
    if library.cilvm_version() >> 16 != VERSION >> 16:
        raise ImportError(f"libcilvm has version {library.cilvm_version():#x}, and not {VERSION:#x}")
    return library


def _unsigned(number, bits):
    """The number, which has to fit: ctypes would pass on its lowest bits."""
    if not 0 <= number < 1 << bits:
        raise OverflowError(f"{number} is not a number of {bits} bits")
    return number


_LIBRARY = _load()
_CLOSED = []
_LOCK = threading.Lock()


def _new_session():
    """A closed session: one that was used before, or a new one."""
    with _LOCK:
        if _CLOSED:
            return _CLOSED.pop()
    session = ctypes.c_void_p()
    if _LIBRARY.cilvm_new(ctypes.byref(session)) == Code.NO_MEMORY:
        raise MemoryError
    return session


def check(source):
    """Returns 0 where a source is accepted, and else the number of the refusal."""
    number = _LIBRARY.cilvm_check(source, len(source))
    if number == Code.NO_MEMORY:
        raise MemoryError
    return number


class Machine:
    """The machine of a source, which is bytes. `printed` is how many bytes the program may print; `max_words` is `words` where it is left out.

    A source or limits that are refused raise Refused, a number that does not fit its type OverflowError.
    """

    def __init__(self, source, words=65_536, max_words=None, budget=100_000, depth=64, printed=ctypes.c_size_t(-1).value):
        self._at = None
        numbers = [_unsigned(it, 32) for it in (words, words if max_words is None else max_words, budget, depth)]
        limits = _Limits(*numbers, _unsigned(printed, 8 * ctypes.sizeof(ctypes.c_size_t)))
        session = _new_session()
        number = _LIBRARY.cilvm_open(session, source, len(source), ctypes.byref(limits))
        self._at = session
        if number == Code.NO_MEMORY:
            raise MemoryError
        if number != Code.RAN:
            raise self._refused(number)

    def __del__(self):
        self.close()

    def __enter__(self):
        return self

    def __exit__(self, *_):
        self.close()

    def close(self):
        """Gives back the machine's memory. The machine is not used again."""
        session, self._at = self._at, None
        if session is not None:
            _LIBRARY.cilvm_close(session)
            with _LOCK:
                _CLOSED.append(session)

    def _session(self):
        """The session, which a machine that was closed has no more."""
        if self._at is None:
            raise ValueError("the machine is closed")
        return self._at

    def _copied(self, call):
        """All that a call copies, from the first byte on."""
        found, piece = bytearray(), ctypes.create_string_buffer(PIECE)
        while count := call(self._session(), len(found), piece, PIECE):
            found += piece.raw[:count]
        return bytes(found)

    def _refused(self, number):
        return Refused(number, self._copied(_LIBRARY.cilvm_why).decode("utf-8", "replace"))

    @staticmethod
    def _done(number):
        """The code of an event that was done."""
        if number == Code.NO_MEMORY:
            raise MemoryError
        if number == Code.FULL:
            raise Full
        return Code(number)

    def step(self, thread=0):
        """Has a thread make a step, and returns the code of its report. MemoryError or Full: it was not made."""
        return self._done(_LIBRARY.cilvm_step(self._session(), _unsigned(thread, 8)))

    def steps(self, most, thread=0):
        """Has a thread make steps until one does not report that it ran, at most this many. Returns how many were made, and
        the last code: FULL and NO_MEMORY are of a step that was not made."""
        count = ctypes.c_uint32()
        number = _LIBRARY.cilvm_steps(self._session(), _unsigned(thread, 8), _unsigned(most, 32), ctypes.byref(count))
        return count.value, Code(number)

    def ack(self, thread):
        """Has a thread acknowledge what the collector posted, and returns the code of the report."""
        return self._done(_LIBRARY.cilvm_ack(self._session(), _unsigned(thread, 8)))

    def gc(self):
        """Has the collector do an event, and returns the code of its report."""
        return self._done(_LIBRARY.cilvm_gc(self._session()))

    def run(self, schedule):
        """Does the events of a schedule's text, which is bytes. Returns how many were done, and RAN, or why the next was not: FULL or NO_MEMORY."""
        count = ctypes.c_uint64()
        number = _LIBRARY.cilvm_run(self._session(), schedule, len(schedule), ctypes.byref(count))
        if number not in iter(Code):
            raise self._refused(number)
        return count.value, Code(number)

    def printed(self):
        """Returns what the program has printed."""
        return self._copied(_LIBRARY.cilvm_read)

    def end_of(self, thread):
        """Returns the code of a thread's end; RAN where it is live, and ABSENT where it was never started."""
        return Code(_LIBRARY.cilvm_end_of(self._session(), _unsigned(thread, 8)))

    def live(self):
        """Returns how many threads are live."""
        return _LIBRARY.cilvm_live(self._session())

    def used(self):
        """Returns the words in use of the old space, or the only one, and of the new one."""
        new = ctypes.c_uint32()
        return _LIBRARY.cilvm_used(self._session(), ctypes.byref(new)), new.value

    def waits(self, thread):
        """Returns whom a thread waits for, or None."""
        number = _LIBRARY.cilvm_waits(self._session(), _unsigned(thread, 8))
        return Wait(number < 512, number % 256) if number >= 256 else None
