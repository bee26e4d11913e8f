//! The numbers of the codes, as the header has them.

// tools/host_codes: begin
/// A step: the instruction was done. A run: all events were done. A thread: it is live. Any other call: it was done.
pub const RAN: u32 = 0;
/// A step: the thread waits for a monitor or for another thread, and used a step of its budget.
pub const BLOCKED: u32 = 1;
/// No such thread is live, and nothing changed. A thread: it was never started.
pub const ABSENT: u32 = 2;
/// An acknowledgement: the thread acknowledged the posted phase or round.
pub const ACKED: u32 = 3;
/// An acknowledgement: the thread had nothing to acknowledge.
pub const NOTHING_POSTED: u32 = 4;
/// The collector: some work was done.
pub const WORKED: u32 = 5;
/// The collector: it waits for a thread's acknowledgement.
pub const WAITING: u32 = 6;
/// The collector: the cycle is done, and its old space was freed.
pub const CYCLE_DONE: u32 = 7;
/// The thread ended: its first method returned.
pub const DONE: u32 = 16;
/// The thread ended: its budget of steps was used up.
pub const BUDGET: u32 = 17;
/// The thread ended: a field, an element, the length or a method of null.
pub const NULL_REFERENCE: u32 = 32;
/// The thread ended: an index out of the range of an array.
pub const INDEX_OUT_OF_RANGE: u32 = 33;
/// The thread ended: a store of an object into an array whose element type it doesn't fit.
pub const ARRAY_TYPE_MISMATCH: u32 = 34;
/// The thread ended: a cast of an object to a type that it doesn't fit.
pub const INVALID_CAST: u32 = 35;
/// The thread ended: a division or remainder by 0.
pub const DIVIDE_BY_ZERO: u32 = 36;
/// The thread ended: a division or remainder of the least integer by -1.
pub const ARITHMETIC: u32 = 37;
/// The thread ended: a checked sum, difference or product that doesn't fit, or an array of a negative length.
pub const OVERFLOW: u32 = 38;
/// The thread ended: an object that its heap has no room for.
pub const OUT_OF_MEMORY: u32 = 39;
/// The thread ended: a start of a seventeenth thread.
pub const TOO_MANY_THREADS: u32 = 40;
/// The thread ended: a call beyond the limit of frames.
pub const STACK_OVERFLOW: u32 = 41;
/// The thread ended: an enter or exit of the monitor of null.
pub const ARGUMENT_NULL: u32 = 42;
/// The thread ended: an exit of a monitor that it doesn't hold.
pub const SYNCHRONIZATION_LOCK: u32 = 43;
/// The thread ended: a start of a thread that was started before, or a join of one that was not started.
pub const THREAD_STATE: u32 = 44;
/// The program has printed more bytes than it may, and nothing changed.
pub const FULL: u32 = 253;
/// The session is closed.
pub const CLOSED: u32 = 254;
/// Memory of the host ran out, and nothing changed. The same call may be made again.
pub const NO_MEMORY: u32 = 255;
// tools/host_codes: end
