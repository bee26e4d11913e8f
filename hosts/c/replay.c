/* Does what `cilvm replay` does, over the library alone: its outputs and status are to be the same. The host makes the events itself, one call
   for each.

   usage: replay [--reports | --text | --steps] [--words N] [--max-words N] [--budget N] [--depth N] [--printed N] SOURCE SCHEDULE

       --reports    prints the report of each event, one a line, in place of what the program prints
       --text       has the library read the schedule (cilvm_run)
       --steps      makes the steps of an item by one call (cilvm_steps) */
#include <cilvm.h>
#include <stdio.h>
#include <stdlib.h>
#include <string.h>

enum { ROOM = 1 << 24 };

/* How events are done. */
enum way { BY_EVENT, BY_REPORT, BY_TEXT, BY_STEPS };

struct order {
    enum way way;
    cilvm_limits limits;
    const char *source, *schedule;
};

/* What a trace calls a report. */
static const char *report_name(uint32_t code) {
    switch (code) {
    case CILVM_RAN: return "ran";
    case CILVM_BLOCKED: return "blocked";
    case CILVM_ABSENT: return "absent";
    case CILVM_ACKED: return "acked";
    case CILVM_NOTHING_POSTED: return "nothing-posted";
    case CILVM_WORKED: return "worked";
    case CILVM_WAITING: return "waiting";
    case CILVM_CYCLE_DONE: return "cycle-done";
    case CILVM_DONE: return "done";
    case CILVM_BUDGET: return "budget";
    case CILVM_NULL_REFERENCE: return "System.NullReferenceException";
    case CILVM_INDEX_OUT_OF_RANGE: return "System.IndexOutOfRangeException";
    case CILVM_ARRAY_TYPE_MISMATCH: return "System.ArrayTypeMismatchException";
    case CILVM_INVALID_CAST: return "System.InvalidCastException";
    case CILVM_DIVIDE_BY_ZERO: return "System.DivideByZeroException";
    case CILVM_ARITHMETIC: return "System.ArithmeticException";
    case CILVM_OVERFLOW: return "System.OverflowException";
    case CILVM_OUT_OF_MEMORY: return "System.OutOfMemoryException";
    case CILVM_TOO_MANY_THREADS: return "System.OutOfMemoryException";
    case CILVM_STACK_OVERFLOW: return "System.StackOverflowException";
    case CILVM_ARGUMENT_NULL: return "System.ArgumentNullException";
    case CILVM_SYNCHRONIZATION_LOCK: return "System.Threading.SynchronizationLockException";
    case CILVM_THREAD_STATE: return "System.Threading.ThreadStateException";
    default: return "?";
    }
}

static size_t read_file(const char *name, char *to) {
    FILE *file = fopen(name, "rb");
    if (!file) exit(5);
    size_t length = fread(to, 1, ROOM - 1, file);
    fclose(file);
    to[length] = 0;
    return length;
}

/* Ends the program where memory ran out, or more was printed than may be. */
static void expect_done(uint32_t code) {
    if (code == CILVM_NO_MEMORY || code == CILVM_FULL) {
        fputs(code == CILVM_FULL ? "full\n" : "memory\n", stderr);
        exit(5);
    }
}

/* Has a thread make steps by as few calls as can be. */
static void make_steps(cilvm *session, uint8_t thread, uint32_t times) {
    while (times > 0) {
        uint32_t done, code = cilvm_steps(session, thread, times, &done);
        expect_done(code);
        if (code == CILVM_ABSENT) return;
        times -= done;
    }
}

/* Does one event, and prints its report where that is wanted. */
static void do_event(cilvm *session, char kind, uint8_t thread, enum way way) {
    uint32_t code = kind == 's' ? cilvm_step(session, thread) : kind == 'a' ? cilvm_ack(session, thread) : cilvm_gc(session);
    expect_done(code);
    if (way == BY_REPORT) puts(report_name(code));
}

/* Does an item of a schedule, such as `s0`, `a1` or `g*5`. */
static void do_item(cilvm *session, const char *item, enum way way) {
    char *rest = (char *) item + 1;
    uint8_t thread = item[0] == 'g' ? 0 : (uint8_t) strtol(rest, &rest, 10);
    uint32_t times = *rest == '*' ? (uint32_t) strtol(rest + 1, NULL, 10) : 1;
    if (way == BY_STEPS && item[0] == 's') make_steps(session, thread, times);
    else while (times-- > 0) do_event(session, item[0], thread, way);
}

static void do_events(cilvm *session, char *text, size_t length, enum way way) {
    uint64_t done;
    if (way == BY_TEXT) {
        expect_done(cilvm_run(session, (const uint8_t *) text, length, &done));
        return;
    }
    for (char *item = strtok(text, " \t\r\n"); item; item = strtok(NULL, " \t\r\n")) do_item(session, item, way);
}

static void print_all(cilvm *session) {
    uint8_t piece[4096];
    size_t from = 0, count;
    while ((count = cilvm_read(session, from, piece, sizeof piece)) > 0) {
        fwrite(piece, 1, count, stdout);
        from += count;
    }
}

/* Prints how threads stand, and returns the status: 4 where one is live, 3 where one ended early. */
static int print_ends(cilvm *session) {
    int early = 0;
    for (uint8_t thread = 0; thread < CILVM_MOST_THREADS; thread++) {
        uint32_t code = cilvm_end_of(session, thread);
        if (code == CILVM_ABSENT) continue;
        if (code != CILVM_RAN && code != CILVM_DONE) early = 1;
        fprintf(stderr, "thread %u: %s\n", (unsigned) thread, code == CILVM_RAN ? "live" : report_name(code));
    }
    return cilvm_live(session) > 0 ? 4 : early ? 3 : 0;
}

static struct order read_order(int count, char **words) {
    struct order order = { BY_EVENT, CILVM_DEFAULT_LIMITS, NULL, NULL };
    int grows = 0;
    for (int i = 1; i < count; i++) {
        const char *word = words[i];
        const char *value = i + 1 < count ? words[i + 1] : "";
        if (!strcmp(word, "--reports")) order.way = BY_REPORT;
        else if (!strcmp(word, "--text")) order.way = BY_TEXT;
        else if (!strcmp(word, "--steps")) order.way = BY_STEPS;
        else if (!strcmp(word, "--words")) order.limits.words = (uint32_t) atol(value), i++;
        else if (!strcmp(word, "--max-words")) order.limits.max_words = (uint32_t) atol(value), grows = 1, i++;
        else if (!strcmp(word, "--budget")) order.limits.budget = (uint32_t) atol(value), i++;
        else if (!strcmp(word, "--depth")) order.limits.depth = (uint32_t) atol(value), i++;
        else if (!strcmp(word, "--printed")) order.limits.printed = (size_t) atol(value), i++;
        else if (!order.source) order.source = word;
        else order.schedule = word;
    }
    if (!grows) order.limits.max_words = order.limits.words;
    return order;
}

int main(int count, char **words) {
    static char source[ROOM], schedule[ROOM];
    struct order order = read_order(count, words);
    if (!order.schedule) return fputs("usage: replay [OPTIONS] SOURCE SCHEDULE\n", stderr), 2;
    size_t source_length = read_file(order.source, source), schedule_length = read_file(order.schedule, schedule);
    cilvm *session;
    if (cilvm_new(&session)) return 5;
    uint32_t code = cilvm_open(session, (const uint8_t *) source, source_length, &order.limits);
    if (code) return fprintf(stderr, "error %u\n", (unsigned) code), code == CILVM_NO_MEMORY ? 5 : code == 401 ? 2 : 1;
    do_events(session, schedule, schedule_length, order.way);
    if (order.way != BY_REPORT) print_all(session);
    int status = print_ends(session);
    cilvm_close(session);
    return status;
}
