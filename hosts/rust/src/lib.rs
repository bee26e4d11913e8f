//! A proved machine for a subset of the Common Intermediate Language (ECMA-335), over the library `libcilvm`.
//!
//! ```no_run
//! let mut machine = cilvm::Machine::open(b".assembly extern mscorlib {} ..", cilvm::Limits::default())?;
//! machine.drive(cilvm::RoundRobin::new(1))?;
//! println!("{}", String::from_utf8_lossy(&machine.printed()));
//! # Ok::<(), Box<dyn std::error::Error>>(())
//! ```

mod answers;
pub mod codes;
mod events;
mod ffi;

pub use answers::{Ack, End, Fault, Gc, NotDone, Refused, Report, Step, ThreadStatus, Wait};
pub use events::{BadItem, Event, Random, RoundRobin, Schedule, MOST_THREADS};

use std::ptr;
use std::sync::Mutex;

/// The limits of a machine.
#[derive(Clone, Copy, Debug, PartialEq, Eq)]
pub struct Limits {
    /// Words of 64 bits of the first space of the heap: 64 to 1,048,576.
    pub words: u32,
    /// Words that later spaces may grow to: `words` to 1,048,576.
    pub max_words: u32,
    /// Steps of each thread: 1 to 1,000,000.
    pub budget: u32,
    /// Frames of each thread: 1 to 256.
    pub depth: u32,
    /// Bytes that the program may print: once more stand there, no event is done.
    pub printed: usize,
}

/// Those of the program `cilvm` where no option says otherwise.
impl Default for Limits {
    fn default() -> Limits {
        Limits {
            words: 65_536,
            max_words: 65_536,
            budget: 100_000,
            depth: 64,
            printed: usize::MAX,
        }
    }
}

/// A session that one call at a time is given.
struct Session(*mut ffi::Session);

// A session is used by one call at a time, by any thread.
unsafe impl Send for Session {}

/// Sessions that were closed, to be opened again.
static CLOSED: Mutex<Vec<Session>> = Mutex::new(Vec::new());

/// Bytes that are copied by one call.
const PIECE: usize = 4096;

impl Session {
    /// A closed session: one that was used before, or a new one.
    fn closed() -> Result<Session, Refused> {
        let kept = CLOSED.lock().unwrap_or_else(|it| it.into_inner()).pop();
        match kept {
            Some(it) => Ok(it),
            None => Session::new(),
        }
    }

    fn new() -> Result<Session, Refused> {
        let mut at = ptr::null_mut();
        match unsafe { ffi::cilvm_new(&mut at) } {
            codes::RAN => Ok(Session(at)),
            _ => Err(Refused::NoMemory),
        }
    }
}

/// A machine before its first event or amid its run. It may be sent to another thread, and is used by one at a time.
pub struct Machine {
    session: Session,
}

impl Drop for Machine {
    fn drop(&mut self) {
        unsafe { ffi::cilvm_close(self.session.0) };
        let session = Session(self.session.0);
        CLOSED
            .lock()
            .unwrap_or_else(|it| it.into_inner())
            .push(session);
    }
}

/// The version of the library that runs: 65,536 times the major number, 256 times the minor one, and the patch.
pub fn version() -> u32 {
    unsafe { ffi::cilvm_version() }
}

impl Machine {
    /// The machine of a source, before its first event.
    pub fn open(source: &[u8], limits: Limits) -> Result<Machine, Refused> {
        let machine = Machine {
            session: Session::closed()?,
        };
        let limits = ffi::Limits {
            words: limits.words,
            max_words: limits.max_words,
            budget: limits.budget,
            depth: limits.depth,
            printed: limits.printed,
        };
        match unsafe { ffi::cilvm_open(machine.session.0, source.as_ptr(), source.len(), &limits) }
        {
            codes::RAN => Ok(machine),
            number => Err(machine.refused(number)),
        }
    }

    fn refused(&self, number: u32) -> Refused {
        match number {
            codes::NO_MEMORY => Refused::NoMemory,
            _ => Refused::Number(
                number,
                String::from_utf8_lossy(&self.copied(ffi::cilvm_why)).into_owned(),
            ),
        }
    }

    /// All that a call copies, from the first byte on.
    fn copied(
        &self,
        call: unsafe extern "C" fn(*mut ffi::Session, usize, *mut u8, usize) -> usize,
    ) -> Vec<u8> {
        let (mut found, mut piece) = (Vec::new(), [0; PIECE]);
        loop {
            match unsafe { call(self.session.0, found.len(), piece.as_mut_ptr(), PIECE) } {
                0 => return found,
                count => found.extend_from_slice(&piece[..count]),
            }
        }
    }

    /// A step of a thread.
    pub fn step(&mut self, thread: u8) -> Result<Step, NotDone> {
        answers::step(unsafe { ffi::cilvm_step(self.session.0, thread) })
    }

    /// Steps of a thread until one is not `Ran`, at most this many: how many were made, and the answer of the last one, or why the next was not made.
    pub fn steps(&mut self, thread: u8, most: u32) -> (u32, Result<Step, NotDone>) {
        let mut done = 0;
        let code = unsafe { ffi::cilvm_steps(self.session.0, thread, most, &mut done) };
        (done, answers::step(code))
    }

    /// A thread acknowledges what the collector has posted.
    pub fn ack(&mut self, thread: u8) -> Result<Ack, NotDone> {
        answers::ack(unsafe { ffi::cilvm_ack(self.session.0, thread) })
    }

    /// An event of the collector.
    pub fn gc(&mut self) -> Result<Gc, NotDone> {
        answers::gc(unsafe { ffi::cilvm_gc(self.session.0) })
    }

    /// An event.
    pub fn act(&mut self, event: Event) -> Result<Report, NotDone> {
        match event {
            Event::Step(thread) => self.step(thread).map(Report::Step),
            Event::Ack(thread) => self.ack(thread).map(Report::Ack),
            Event::Gc => self.gc().map(Report::Gc),
        }
    }

    /// Does the events of a scheduler until no thread is live, or until they end. It says how many were done.
    pub fn drive(&mut self, events: impl IntoIterator<Item = Event>) -> Result<u64, NotDone> {
        let (mut done, mut events) = (0, events.into_iter());
        while self.live() > 0 {
            let Some(event) = events.next() else { break };
            self.act(event)?;
            done += 1;
        }
        Ok(done)
    }

    /// Does the events of a schedule's text. It says how many were done, and why the next one was not, where one was not.
    pub fn run(&mut self, text: &[u8]) -> Result<(u64, Option<NotDone>), Refused> {
        let mut done = 0;
        match unsafe { ffi::cilvm_run(self.session.0, text.as_ptr(), text.len(), &mut done) } {
            codes::RAN => Ok((done, None)),
            codes::FULL => Ok((done, Some(NotDone::Full))),
            codes::NO_MEMORY => Ok((done, Some(NotDone::NoMemory))),
            number => Err(self.refused(number)),
        }
    }

    /// What the program has printed.
    pub fn printed(&self) -> Vec<u8> {
        self.copied(ffi::cilvm_read)
    }

    /// How a thread stands.
    pub fn status(&self, thread: u8) -> ThreadStatus {
        answers::status(unsafe { ffi::cilvm_end_of(self.session.0, thread) })
    }

    /// How many threads are live.
    pub fn live(&self) -> u32 {
        unsafe { ffi::cilvm_live(self.session.0) }
    }

    /// The words in use of the old space, or the only one, and of the new one.
    pub fn used(&self) -> (u32, u32) {
        let mut new = 0;
        let old = unsafe { ffi::cilvm_used(self.session.0, &mut new) };
        (old, new)
    }

    /// Whom a thread waits for.
    pub fn wait(&self, thread: u8) -> Option<Wait> {
        answers::wait(unsafe { ffi::cilvm_waits(self.session.0, thread) })
    }
}

/// Whether a source is accepted.
pub fn check(source: &[u8]) -> Result<(), Refused> {
    match unsafe { ffi::cilvm_check(source.as_ptr(), source.len()) } {
        codes::RAN => Ok(()),
        codes::NO_MEMORY => Err(Refused::NoMemory),
        number => Err(Refused::Number(number, String::new())),
    }
}
