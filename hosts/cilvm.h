/* cilvm: a proved machine for a subset of the Common Intermediate Language (ECMA-335), as a library.

   A session is a machine that a host steps, event by event. It is used by one call at a time; different sessions may be used by different
   threads at once. No call waits, prints, reads a file, calls back, or keeps a pointer that it was given. The same calls return the
   same codes everywhere, unless memory runs out: the events that were done are a schedule, and `cilvm replay` of its text, of up to 1,000,000
   events, prints the same bytes.

   A host owes: a session that `cilvm_new` gave, used by one call at a time; pointers that are not null, to as many bytes as the length says,
   even of length 0; and no call from a signal handler, or in the forked child of a process with threads. Nothing checks that. */
#ifndef CILVM_H
#define CILVM_H

#include <stddef.h>
#include <stdint.h>

#ifdef __cplusplus
extern "C" {
#endif

/* 65,536 times the major number, 256 times the minor one, and the patch. Functions and codes are only added within a major number. */
#define CILVM_VERSION 0x000100

/* The threads that a program may start in all, the first one counted. They have the numbers from 0 on. */
#define CILVM_MOST_THREADS 16

typedef struct cilvm cilvm;

/* The limits of a session. Out of its range, one of the first four is refused with 401. */
typedef struct cilvm_limits {
    uint32_t words;     /* words of 64 bits of the first space of the heap: 64 to 1,048,576 */
    uint32_t max_words; /* words that later spaces may grow to: `words` to 1,048,576 */
    uint32_t budget;    /* steps of each thread: 1 to 1,000,000 */
    uint32_t depth;     /* frames of each thread: 1 to 256 */
    size_t printed;     /* bytes that the program may print: once it has printed more, no event is done (CILVM_FULL) */
} cilvm_limits;

/* The limits of the program `cilvm` where no option says otherwise. */
#define CILVM_DEFAULT_LIMITS { 65536, 65536, 100000, 64, SIZE_MAX }

/* What calls return. Other numbers are refusals, which docs/REFERENCE.md lists: 101 to 104, 201 to 207 and 301 of a source, 401 of limits,
   501 to 503 of a schedule. */
enum cilvm_code {
    /* tools/host_codes: begin */
    /* A step: the instruction was done. A run: all events were done. A thread: it is live. Any other call: it was done. */
    CILVM_RAN = 0,
    /* A step: the thread waits for a monitor or for another thread, and used a step of its budget. */
    CILVM_BLOCKED = 1,
    /* No such thread is live, and nothing changed. A thread: it was never started. */
    CILVM_ABSENT = 2,
    /* An acknowledgement: the thread acknowledged the posted phase or round. */
    CILVM_ACKED = 3,
    /* An acknowledgement: the thread had nothing to acknowledge. */
    CILVM_NOTHING_POSTED = 4,
    /* The collector: some work was done. */
    CILVM_WORKED = 5,
    /* The collector: it waits for a thread's acknowledgement. */
    CILVM_WAITING = 6,
    /* The collector: the cycle is done, and its old space was freed. */
    CILVM_CYCLE_DONE = 7,
    /* The thread ended: its first method returned. */
    CILVM_DONE = 16,
    /* The thread ended: its budget of steps was used up. */
    CILVM_BUDGET = 17,
    /* The thread ended: a field, an element, the length or a method of null. */
    CILVM_NULL_REFERENCE = 32,
    /* The thread ended: an index out of the range of an array. */
    CILVM_INDEX_OUT_OF_RANGE = 33,
    /* The thread ended: a store of an object into an array whose element type it doesn't fit. */
    CILVM_ARRAY_TYPE_MISMATCH = 34,
    /* The thread ended: a cast of an object to a type that it doesn't fit. */
    CILVM_INVALID_CAST = 35,
    /* The thread ended: a division or remainder by 0. */
    CILVM_DIVIDE_BY_ZERO = 36,
    /* The thread ended: a division or remainder of the least integer by -1. */
    CILVM_ARITHMETIC = 37,
    /* The thread ended: a checked sum, difference or product that doesn't fit, or an array of a negative length. */
    CILVM_OVERFLOW = 38,
    /* The thread ended: an object that its heap has no room for. */
    CILVM_OUT_OF_MEMORY = 39,
    /* The thread ended: a start of a seventeenth thread. */
    CILVM_TOO_MANY_THREADS = 40,
    /* The thread ended: a call beyond the limit of frames. */
    CILVM_STACK_OVERFLOW = 41,
    /* The thread ended: an enter or exit of the monitor of null. */
    CILVM_ARGUMENT_NULL = 42,
    /* The thread ended: an exit of a monitor that it doesn't hold. */
    CILVM_SYNCHRONIZATION_LOCK = 43,
    /* The thread ended: a start of a thread that was started before, or a join of one that was not started. */
    CILVM_THREAD_STATE = 44,
    /* The program has printed more bytes than it may, and nothing changed. */
    CILVM_FULL = 253,
    /* The session is closed. */
    CILVM_CLOSED = 254,
    /* Memory of the host ran out, and nothing changed. The same call may be made again. */
    CILVM_NO_MEMORY = 255,
    /* tools/host_codes: end */
    /* The same of a call that is no event. */
    CILVM_OK = CILVM_RAN
};

/* The version of the library that runs, to be compared with CILVM_VERSION. */
uint32_t cilvm_version(void);

/* Whether a source is accepted: CILVM_OK, CILVM_NO_MEMORY, or the number of a refusal. */
uint32_t cilvm_check(const uint8_t *source, size_t length);

/* Makes a closed session: CILVM_OK or CILVM_NO_MEMORY. */
uint32_t cilvm_new(cilvm **out);

/* Opens a session with the machine of a source, before its first event; one that is open is closed first. CILVM_OK, or why it is closed now:
   CILVM_NO_MEMORY or the number of a refusal. */
uint32_t cilvm_open(cilvm *session, const uint8_t *source, size_t length, const cilvm_limits *limits);

/* Copies the text that explains the last refusal by `open` or `run`, from this byte on, as much as there is room for: how much was copied. The
   text is empty after an `open` that succeeds, after `close`, and where memory for it ran out. */
size_t cilvm_why(cilvm *session, size_t from, uint8_t *to, size_t room);

/* An instruction of a thread: the code of its report, or CILVM_FULL, CILVM_CLOSED or CILVM_NO_MEMORY. So of the next three calls. */
uint32_t cilvm_step(cilvm *session, uint8_t thread);

/* Steps of a thread until one does not return CILVM_RAN, at most `most`: the last code. `done` says how many were made. */
uint32_t cilvm_steps(cilvm *session, uint8_t thread, uint32_t most, uint32_t *done);

/* A thread acknowledges what the collector posted: the code of the report. */
uint32_t cilvm_ack(cilvm *session, uint8_t thread);

/* An event of the collector: the code of its report. */
uint32_t cilvm_gc(cilvm *session);

/* The events of a schedule's text, as `s0 a0 g s1*5`: CILVM_OK; the number of a refusal, and nothing is done; or CILVM_FULL,
   CILVM_CLOSED or CILVM_NO_MEMORY, where an event was not done. `done` says how many events were done. */
uint32_t cilvm_run(cilvm *session, const uint8_t *text, size_t length, uint64_t *done);

/* Copies what the program has printed, from this byte on, as much as there is room for: how much was copied, 0 of a closed session. */
size_t cilvm_read(cilvm *session, size_t from, uint8_t *to, size_t room);

/* Whether and how a thread has ended: CILVM_RAN if it is live, CILVM_ABSENT if it was never started, else the code of its end; CILVM_CLOSED of a
   closed session. */
uint32_t cilvm_end_of(cilvm *session, uint8_t thread);

/* How many threads are live: 0 of a closed session. */
uint32_t cilvm_live(cilvm *session);

/* The words in use of the old space of the heap, or the only one. `new_words` says those of the new one. Both are 0 of a closed session. */
uint32_t cilvm_used(cilvm *session, uint32_t *new_words);

/* Whom a thread waits for: 0 for nobody, CILVM_MONITOR plus the number of the thread that holds a monitor, or CILVM_JOIN plus the number of
   the thread whose end is awaited; CILVM_CLOSED of a closed session. */
uint32_t cilvm_waits(cilvm *session, uint8_t thread);
enum { CILVM_MONITOR = 256, CILVM_JOIN = 512 };

/* Frees all memory but the session's own block: CILVM_OK. The session may be opened again. */
uint32_t cilvm_close(cilvm *session);

#ifdef __cplusplus
}
#endif
#endif
