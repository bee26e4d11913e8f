/* Four threads of the host run 50 machines each, one after the other and each by its own session. All have to print the same.

   usage: threads SOURCE */
#include <cilvm.h>
#include <pthread.h>
#include <stdio.h>
#include <string.h>

enum { ROOM = 1048577, WORKERS = 4, MACHINES = 50, PRINTED = 4096 };

static uint8_t source[ROOM];
static size_t length;

struct outcome {
    int failed;
    size_t count;
    uint8_t printed[PRINTED];
};

/* Runs one machine by turns until none of its threads is live. */
static int run(cilvm *session, struct outcome *to) {
    cilvm_limits limits = CILVM_DEFAULT_LIMITS;
    if (cilvm_open(session, source, length, &limits)) return 1;
    while (cilvm_live(session) > 0) {
        for (uint8_t thread = 0; thread < CILVM_MOST_THREADS; thread++) {
            if (cilvm_step(session, thread) >= CILVM_FULL) return 1;
        }
    }
    to->count = cilvm_read(session, 0, to->printed, PRINTED);
    return 0;
}

static void *work(void *argument) {
    struct outcome *own = argument, one;
    for (int machine = 0; machine < MACHINES; machine++) {
        cilvm *session;
        if (cilvm_new(&session) || run(session, &one)) return own->failed = 1, NULL;
        cilvm_close(session);
        if (machine == 0) *own = one;
        own->failed |= one.count != own->count || memcmp(one.printed, own->printed, one.count) != 0;
    }
    return NULL;
}

int main(int count, char **words) {
    static struct outcome outcomes[WORKERS];
    pthread_t workers[WORKERS];
    FILE *file = count == 2 ? fopen(words[1], "rb") : NULL;
    if (!file) return fputs("usage: threads SOURCE\n", stderr), 2;
    length = fread(source, 1, ROOM, file);
    fclose(file);
    for (int i = 0; i < WORKERS; i++) pthread_create(&workers[i], NULL, work, &outcomes[i]);
    for (int i = 0; i < WORKERS; i++) pthread_join(workers[i], NULL);
    for (int i = 0; i < WORKERS; i++) {
        struct outcome *it = &outcomes[i];
        if (it->failed || it->count != outcomes[0].count || memcmp(it->printed, outcomes[0].printed, it->count)) return fputs("they differ\n", stderr), 1;
    }
    fwrite(outcomes[0].printed, 1, outcomes[0].count, stdout);
    return 0;
}
