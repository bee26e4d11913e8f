/* Runs a source: each live thread makes a step in turn, until none is live. What the program prints goes to the standard output, how each
   thread ended to the standard error.

   usage: demo SOURCE */
#include <cilvm.h>
#include <stdio.h>
#include <stdlib.h>

/* The longest source that is accepted, and one byte. */
enum { ROOM = 1048577 };

/* Prints all that a call copies. */
static void print_all(cilvm *session, size_t (*call)(cilvm *, size_t, uint8_t *, size_t), FILE *to) {
    uint8_t piece[4096];
    size_t from = 0, count;
    while ((count = call(session, from, piece, sizeof piece)) > 0) {
        fwrite(piece, 1, count, to);
        from += count;
    }
}

/* Steps all threads until none is live, or an event is not done. */
static uint32_t run(cilvm *session) {
    while (cilvm_live(session) > 0) {
        for (uint8_t thread = 0; thread < CILVM_MOST_THREADS; thread++) {
            uint32_t code = cilvm_step(session, thread);
            if (code == CILVM_FULL || code == CILVM_NO_MEMORY) return code;
        }
    }
    return CILVM_OK;
}

static void print_ends(cilvm *session) {
    for (uint8_t thread = 0; thread < CILVM_MOST_THREADS; thread++) {
        uint32_t code = cilvm_end_of(session, thread);
        if (code != CILVM_ABSENT) fprintf(stderr, "thread %u: code %u\n", (unsigned) thread, (unsigned) code);
    }
}

int main(int count, char **words) {
    static uint8_t source[ROOM];
    cilvm_limits limits = CILVM_DEFAULT_LIMITS;
    FILE *file = count == 2 ? fopen(words[1], "rb") : NULL;
    if (!file) return fprintf(stderr, "usage: demo SOURCE\n"), 2;
    size_t length = fread(source, 1, sizeof source, file);
    fclose(file);
    cilvm *session;
    if (cilvm_version() >> 16 != CILVM_VERSION >> 16 || cilvm_new(&session)) return 5;
    uint32_t code = cilvm_open(session, source, length, &limits);
    if (code) {
        fprintf(stderr, "error %u\n", (unsigned) code);
        print_all(session, cilvm_why, stderr);
        return 1;
    }
    code = run(session);
    print_all(session, cilvm_read, stdout);
    print_ends(session);
    cilvm_close(session);
    return code ? 5 : 0;
}
