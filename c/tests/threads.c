/* Calls from two threads at once, over networks of their own that share the lists of terminals: each has to answer what
 * it answers alone. The last line is 'threads: N passed, M failed'. */
#include <pthread.h>
#include <stdio.h>
#include <string.h>

#include "provedflow.h"

enum { NODES = 400, ARCS = 3000, ROUNDS = 40, THREADS = 2, ANSWERS = 4 };

static const uint32_t SOURCES[] = {0, 5}, SINKS[] = {1, 7};

struct work {
    uint32_t seed;
    uint64_t answers[ROUNDS][ANSWERS];
};

/* The next of a row of pseudorandom numbers. */
static uint32_t draw(uint32_t *state, uint32_t below) {
    *state = *state * 1664525u + 1013904223u;
    return (*state >> 8) % below;
}

static void *solve(void *given) {
    struct work *work = (struct work *)given;
    uint32_t src[ARCS], dst[ARCS], state = work->seed;
    uint64_t cap[ARCS], flow[ARCS], high;
    uint8_t side[NODES];
    int round, i;
    for (round = 0; round < ROUNDS; round++) {
        uint64_t *answers = work->answers[round];
        uint32_t verdict = 9, status;
        for (i = 0; i < ARCS; i++) {
            src[i] = draw(&state, NODES);
            dst[i] = draw(&state, NODES);
            cap[i] = draw(&state, 100);
        }
        status = provedflow_cut(NODES, ARCS, src, dst, cap, 2, SOURCES, 2, SINKS, 0, flow, side, &high, &answers[0]);
        status |=
            provedflow_check(NODES, ARCS, src, dst, cap, 2, SOURCES, 2, SINKS, flow, &verdict, &high, &answers[1]);
        status |= provedflow_links(NODES, ARCS, src, dst, 2, SOURCES, 2, SINKS, 1, 1, &answers[2]);
        answers[3] = status + verdict;
    }
    return NULL;
}

int main(void) {
    static struct work together[THREADS], alone[THREADS];
    pthread_t threads[THREADS];
    int i, round, passed = 0, failed = 0;
    for (i = 0; i < THREADS; i++) {
        together[i].seed = alone[i].seed = 7u + (uint32_t)i;
        if (pthread_create(&threads[i], NULL, solve, &together[i])) {
            printf("threads: no thread could be made\n");
            return 1;
        }
    }
    for (i = 0; i < THREADS; i++) {
        pthread_join(threads[i], NULL);
    }
    for (i = 0; i < THREADS; i++) {
        solve(&alone[i]);
        for (round = 0; round < ROUNDS; round++) {
            const uint64_t *found = together[i].answers[round];
            int good = !memcmp(found, alone[i].answers[round], sizeof alone[i].answers[round]) && found[0] == found[1];
            good = good && found[0] && found[2] && !found[3];
            passed += good;
            failed += !good;
        }
    }
    printf("threads: %d passed, %d failed\n", passed, failed);
    return failed != 0;
}
