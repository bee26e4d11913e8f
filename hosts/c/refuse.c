/* Refuses each allocation of a run in turn: every call returns CILVM_NO_MEMORY or its usual code, changes nothing where it returns
   CILVM_NO_MEMORY, and does its work when it is made again. Link with -Wl,--wrap=malloc,--wrap=realloc.

   usage: refuse SOURCE SCHEDULE */
#include <cilvm.h>
#include <stdio.h>
#include <string.h>

enum { ROOM = 1048577, PRINTED = 4096, MOST = 1000000 };

void *__real_malloc(size_t size);
void *__real_realloc(void *at, size_t size);

static long made, refused_at;
static int was_refused;

static int is_refused(void) {
    if (++made != refused_at) return 0;
    was_refused = 1;
    return 1;
}

void *__wrap_malloc(size_t size) { return is_refused() ? NULL : __real_malloc(size); }
void *__wrap_realloc(void *at, size_t size) { return is_refused() ? NULL : __real_realloc(at, size); }

static uint8_t source[ROOM], schedule[ROOM];
static size_t source_length, schedule_length;

/* The result of a run. */
struct outcome {
    size_t count;
    uint8_t printed[PRINTED];
    uint32_t ends[CILVM_MOST_THREADS];
    uint32_t used, new_words;
};

static struct outcome seen(cilvm *session) {
    struct outcome it;
    memset(&it, 0, sizeof it);
    it.count = cilvm_read(session, 0, it.printed, PRINTED);
    for (uint8_t thread = 0; thread < CILVM_MOST_THREADS; thread++) it.ends[thread] = cilvm_end_of(session, thread);
    it.used = cilvm_used(session, &it.new_words);
    return it;
}

static int is_same(const struct outcome *a, const struct outcome *b) { return memcmp(a, b, sizeof *a) == 0; }

/* Does an event, again where memory was refused; 1 where it then changed something. */
static int do_event(cilvm *session, char kind, uint8_t thread) {
    struct outcome before = seen(session), after;
    for (;;) {
        uint32_t code = kind == 's' ? cilvm_step(session, thread) : kind == 'a' ? cilvm_ack(session, thread) : cilvm_gc(session);
        if (code != CILVM_NO_MEMORY) return 0;
        after = seen(session);
        if (!is_same(&before, &after)) return 1;
    }
}

static int do_schedule(cilvm *session) {
    size_t at = 0;
    while (at < schedule_length) {
        unsigned thread = 0, times = 1;
        int taken = 0;
        char kind = (char) schedule[at++];
        if (kind != 's' && kind != 'a' && kind != 'g') continue;
        if (kind != 'g' && sscanf((char *) schedule + at, "%u%n", &thread, &taken) == 1) at += (size_t) taken;
        if (schedule[at] == '*' && sscanf((char *) schedule + at + 1, "%u%n", &times, &taken) == 1) at += 1 + (size_t) taken;
        while (times-- > 0) if (do_event(session, kind, (uint8_t) thread)) return 1;
    }
    return 0;
}

/* Runs the source; 0 where it went as it should, whichever call was refused memory. */
static int run(struct outcome *to) {
    cilvm_limits limits = { 64, 256, 1000, 64, 4000 };
    cilvm *session = NULL;
    while (cilvm_new(&session) == CILVM_NO_MEMORY) {}
    uint32_t code;
    while ((code = cilvm_open(session, source, source_length, &limits)) == CILVM_NO_MEMORY) {
        if (cilvm_step(session, 0) != CILVM_CLOSED) return 1;
    }
    if (code || do_schedule(session)) return 1;
    *to = seen(session);
    cilvm_close(session);
    return cilvm_step(session, 0) != CILVM_CLOSED;
}

static size_t read_file(const char *name, uint8_t *to) {
    FILE *file = fopen(name, "rb");
    if (!file) return 0;
    size_t length = fread(to, 1, ROOM - 1, file);
    fclose(file);
    return length;
}

int main(int count, char **words) {
    static struct outcome expected, found;
    if (count != 3) return fputs("usage: refuse SOURCE SCHEDULE\n", stderr), 2;
    source_length = read_file(words[1], source);
    schedule_length = read_file(words[2], schedule);
    if (run(&expected)) return fputs("the run without a refusal fails\n", stderr), 1;
    for (refused_at = 1; refused_at < MOST; refused_at++) {
        made = 0;
        was_refused = 0;
        if (run(&found) || !is_same(&expected, &found)) return fprintf(stderr, "allocation %ld: another outcome\n", refused_at), 1;
        if (!was_refused) break;
    }
    printf("%ld allocations were refused in turn\n", refused_at - 1);
    return 0;
}
