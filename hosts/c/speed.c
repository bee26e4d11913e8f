/* Times steps of thread 0: by one call each (cilvm_step), by one call for all (cilvm_steps), and by a schedule's text, which the library's own
   loop over the machine does (cilvm_run). The best of several turns counts; the last line has the first two in proportion to the third.

   usage: speed SOURCE [TURNS], as speed.il */
#define _POSIX_C_SOURCE 199309L
#include <cilvm.h>
#include <stdio.h>
#include <stdlib.h>
#include <string.h>
#include <time.h>

enum { ROOM = 1048577, STEPS = 1000000, WAYS = 3 };

static uint8_t source[ROOM];
static size_t length;

static double now(void) {
    struct timespec it;
    clock_gettime(CLOCK_MONOTONIC, &it);
    return (double) it.tv_sec + (double) it.tv_nsec / 1e9;
}

/* The seconds that the steps take in one of the ways. */
static double time_of(cilvm *session, int way) {
    static const char text[] = "s0*1000000";
    cilvm_limits limits = CILVM_DEFAULT_LIMITS;
    uint32_t steps = 0;
    uint64_t events = 0;
    limits.budget = STEPS;
    if (cilvm_open(session, source, length, &limits)) exit(1);
    double begun = now();
    if (way == 0) while (cilvm_step(session, 0) < CILVM_DONE) steps++;
    else if (way == 1) while (cilvm_steps(session, 0, STEPS, &steps) < CILVM_DONE) {}
    else cilvm_run(session, (const uint8_t *) text, strlen(text), &events);
    return now() - begun;
}

int main(int count, char **words) {
    static const char *const names[WAYS] = { "cilvm_step", "cilvm_steps", "cilvm_run" };
    double best[WAYS] = { 1e9, 1e9, 1e9 };
    int turns = count > 2 ? atoi(words[2]) : 9;
    FILE *file = count > 1 ? fopen(words[1], "rb") : NULL;
    if (!file) return fputs("usage: speed SOURCE [TURNS]\n", stderr), 2;
    length = fread(source, 1, ROOM, file);
    fclose(file);
    cilvm *session;
    if (cilvm_new(&session)) return 5;
    for (int turn = 0; turn < turns; turn++) {
        for (int way = 0; way < WAYS; way++) {
            double taken = time_of(session, way);
            if (taken < best[way]) best[way] = taken;
        }
    }
    for (int way = 0; way < WAYS; way++) printf("%s: %.1f ms\n", names[way], best[way] * 1e3);
    printf("of cilvm_run: cilvm_step %.2f, cilvm_steps %.2f\n", best[2] / best[0], best[2] / best[1]);
    cilvm_close(session);
    return 0;
}
