//! What calls return.

use crate::codes;
use std::fmt;

/// Why a thread ended early, named as the standard's exception classes are (ECMA-335 IV).
#[derive(Clone, Copy, Debug, PartialEq, Eq, Hash)]
pub enum Fault {
    NullReference,
    IndexOutOfRange,
    ArrayTypeMismatch,
    InvalidCast,
    DivideByZero,
    Arithmetic,
    Overflow,
    /// A birth that was refused.
    OutOfMemory,
    /// A start of a seventeenth thread.
    TooManyThreads,
    StackOverflow,
    ArgumentNull,
    SynchronizationLock,
    ThreadState,
}

/// How a thread ended.
#[derive(Clone, Copy, Debug, PartialEq, Eq, Hash)]
pub enum End {
    /// Its first method returned.
    Done,
    /// Its budget of steps was used up.
    Budget,
    /// An instruction raised a fault.
    Fault(Fault),
}

/// How a thread stands.
#[derive(Clone, Copy, Debug, PartialEq, Eq, Hash)]
pub enum ThreadStatus {
    NeverStarted,
    Live,
    Ended(End),
}

/// The report of a step.
#[derive(Clone, Copy, Debug, PartialEq, Eq, Hash)]
pub enum Step {
    /// The instruction was done.
    Ran,
    /// The thread waits, and used a step of its budget.
    Blocked,
    /// The thread ended with it.
    Ended(End),
    /// No such thread is live, and nothing changed.
    Absent,
}

/// The report of an acknowledgement.
#[derive(Clone, Copy, Debug, PartialEq, Eq, Hash)]
pub enum Ack {
    /// The thread acknowledged what the collector has posted.
    Acked,
    /// It had acknowledged already.
    NothingPosted,
    /// No such thread is live, and nothing changed.
    Absent,
}

/// The report of an event of the collector.
#[derive(Clone, Copy, Debug, PartialEq, Eq, Hash)]
pub enum Gc {
    /// Some work was done.
    Worked,
    /// It waits for a thread's acknowledgement.
    Waiting,
    /// The old space was given back.
    CycleDone,
}

/// The report of an event.
#[derive(Clone, Copy, Debug, PartialEq, Eq, Hash)]
pub enum Report {
    Step(Step),
    Ack(Ack),
    Gc(Gc),
}

/// Whom a thread waits for.
#[derive(Clone, Copy, Debug, PartialEq, Eq, Hash)]
pub enum Wait {
    /// The thread that holds a monitor, which may have ended.
    Monitor(u8),
    /// The thread whose end is awaited.
    Join(u8),
}

/// Why an event was not done. Nothing changed.
#[derive(Clone, Copy, Debug, PartialEq, Eq, Hash)]
pub enum NotDone {
    /// The program has printed more bytes than it may.
    Full,
    /// Memory of the host ran out. The same event may be tried again.
    NoMemory,
}

/// Why a source, limits or a schedule were refused.
#[derive(Clone, Debug, PartialEq, Eq)]
pub enum Refused {
    /// The number of the refusal, and the text that explains it.
    Number(u32, String),
    /// Memory of the host ran out.
    NoMemory,
}

impl fmt::Display for NotDone {
    fn fmt(&self, f: &mut fmt::Formatter<'_>) -> fmt::Result {
        f.write_str(match self {
            NotDone::Full => "the program has printed more bytes than it may",
            NotDone::NoMemory => "out of memory",
        })
    }
}

impl fmt::Display for Refused {
    fn fmt(&self, f: &mut fmt::Formatter<'_>) -> fmt::Result {
        match self {
            Refused::Number(number, text) => write!(f, "error {number}\n{text}"),
            Refused::NoMemory => f.write_str("out of memory"),
        }
    }
}

impl std::error::Error for NotDone {}
impl std::error::Error for Refused {}

/// The end of a code; None of a code that is no end.
pub(crate) fn end(code: u32) -> Option<End> {
    Some(match code {
        codes::DONE => End::Done,
        codes::BUDGET => End::Budget,
        codes::NULL_REFERENCE => End::Fault(Fault::NullReference),
        codes::INDEX_OUT_OF_RANGE => End::Fault(Fault::IndexOutOfRange),
        codes::ARRAY_TYPE_MISMATCH => End::Fault(Fault::ArrayTypeMismatch),
        codes::INVALID_CAST => End::Fault(Fault::InvalidCast),
        codes::DIVIDE_BY_ZERO => End::Fault(Fault::DivideByZero),
        codes::ARITHMETIC => End::Fault(Fault::Arithmetic),
        codes::OVERFLOW => End::Fault(Fault::Overflow),
        codes::OUT_OF_MEMORY => End::Fault(Fault::OutOfMemory),
        codes::TOO_MANY_THREADS => End::Fault(Fault::TooManyThreads),
        codes::STACK_OVERFLOW => End::Fault(Fault::StackOverflow),
        codes::ARGUMENT_NULL => End::Fault(Fault::ArgumentNull),
        codes::SYNCHRONIZATION_LOCK => End::Fault(Fault::SynchronizationLock),
        codes::THREAD_STATE => End::Fault(Fault::ThreadState),
        _ => return None,
    })
}

/// What a code says of an event that may not have been done.
fn done<T>(code: u32, found: Option<T>) -> Result<T, NotDone> {
    match (code, found) {
        (codes::FULL, _) => Err(NotDone::Full),
        (codes::NO_MEMORY, _) => Err(NotDone::NoMemory),
        (_, Some(it)) => Ok(it),
        (code, None) => unreachable!("libcilvm returned {code}"),
    }
}

pub(crate) fn step(code: u32) -> Result<Step, NotDone> {
    let found = match code {
        codes::RAN => Some(Step::Ran),
        codes::BLOCKED => Some(Step::Blocked),
        codes::ABSENT => Some(Step::Absent),
        _ => end(code).map(Step::Ended),
    };
    done(code, found)
}

pub(crate) fn ack(code: u32) -> Result<Ack, NotDone> {
    let found = match code {
        codes::ACKED => Some(Ack::Acked),
        codes::NOTHING_POSTED => Some(Ack::NothingPosted),
        codes::ABSENT => Some(Ack::Absent),
        _ => None,
    };
    done(code, found)
}

pub(crate) fn gc(code: u32) -> Result<Gc, NotDone> {
    let found = match code {
        codes::WORKED => Some(Gc::Worked),
        codes::WAITING => Some(Gc::Waiting),
        codes::CYCLE_DONE => Some(Gc::CycleDone),
        _ => None,
    };
    done(code, found)
}

pub(crate) fn status(code: u32) -> ThreadStatus {
    match code {
        codes::RAN => ThreadStatus::Live,
        codes::ABSENT => ThreadStatus::NeverStarted,
        code => end(code).map_or(ThreadStatus::NeverStarted, ThreadStatus::Ended),
    }
}

/// A monitor's owner is 256 and its number, a thread whose end is awaited is 512 and its number.
pub(crate) fn wait(code: u32) -> Option<Wait> {
    let thread = (code % 256) as u8;
    match code / 256 {
        1 => Some(Wait::Monitor(thread)),
        2 => Some(Wait::Join(thread)),
        _ => None,
    }
}
