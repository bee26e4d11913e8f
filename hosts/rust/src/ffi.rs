//! The calls of the library, as `cilvm.h` declares them.

/// A session, of which nothing is seen.
#[repr(C)]
pub struct Session {
    _private: [u8; 0],
}

/// `cilvm_limits`.
#[repr(C)]
pub struct Limits {
    pub words: u32,
    pub max_words: u32,
    pub budget: u32,
    pub depth: u32,
    pub printed: usize,
}

extern "C" {
    pub fn cilvm_version() -> u32;
    pub fn cilvm_check(source: *const u8, length: usize) -> u32;
    pub fn cilvm_new(out: *mut *mut Session) -> u32;
    pub fn cilvm_open(
        session: *mut Session,
        source: *const u8,
        length: usize,
        limits: *const Limits,
    ) -> u32;
    pub fn cilvm_why(session: *mut Session, from: usize, to: *mut u8, room: usize) -> usize;
    pub fn cilvm_step(session: *mut Session, thread: u8) -> u32;
    pub fn cilvm_steps(session: *mut Session, thread: u8, most: u32, done: *mut u32) -> u32;
    pub fn cilvm_ack(session: *mut Session, thread: u8) -> u32;
    pub fn cilvm_gc(session: *mut Session) -> u32;
    pub fn cilvm_run(session: *mut Session, text: *const u8, length: usize, done: *mut u64) -> u32;
    pub fn cilvm_read(session: *mut Session, from: usize, to: *mut u8, room: usize) -> usize;
    pub fn cilvm_end_of(session: *mut Session, thread: u8) -> u32;
    pub fn cilvm_live(session: *mut Session) -> u32;
    pub fn cilvm_used(session: *mut Session, new_words: *mut u32) -> u32;
    pub fn cilvm_waits(session: *mut Session, thread: u8) -> u32;
    pub fn cilvm_close(session: *mut Session) -> u32;
}
