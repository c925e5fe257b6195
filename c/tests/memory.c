/* Each request for memory refused in turn, in each call: the call has to answer PROVEDFLOW_MEMORY, to write nothing and
 * to give back all that it took, until no request is refused any more. This program's own malloc, realloc and free
 * stand before those of the C library. The last line is 'memory: N passed, M failed'. */
#include <stdio.h>
#include <string.h>

#include "provedflow.h"

void *__libc_malloc(size_t size);
void *__libc_realloc(void *old, size_t size);
void __libc_free(void *old);

static long left = -1; /* how many requests are still granted; all where it is negative */
static long taken;     /* how many pieces of memory were granted and not given back */

static int is_granted(void) {
    if (left > 0) {
        left--;
        return 1;
    }
    return left < 0;
}

void *malloc(size_t size) {
    void *piece = is_granted() ? __libc_malloc(size) : NULL;
    taken += piece != NULL;
    return piece;
}

void *realloc(void *old, size_t size) {
    void *piece = is_granted() ? __libc_realloc(old, size) : NULL;
    taken += piece != NULL && old == NULL;
    return piece;
}

void free(void *old) {
    taken -= old != NULL;
    __libc_free(old);
}

/* So many arcs in no order that they are solved in a copy. */
enum { NODES = 1200, ARCS = 9000, MOST_REQUESTS = 500 };
static const uint32_t SOURCES[] = {0, 5}, SINKS[] = {1, 7};
static uint32_t src[ARCS], dst[ARCS];
static uint64_t cap[ARCS];

/* What a call may write. */
struct answer {
    uint64_t flow[ARCS], high, low, links;
    uint8_t side[NODES];
    uint32_t verdict;
};

static uint32_t call(int which, struct answer *to) {
    switch (which) {
    case 0:
        return provedflow_flow(NODES, ARCS, src, dst, cap, 2, SOURCES, 2, SINKS, to->flow, &to->high, &to->low);
    case 1:
        return provedflow_flow(NODES, ARCS, src, dst, cap, 2, SOURCES, 2, SINKS, NULL, &to->high, &to->low);
    case 2:
        return provedflow_cut(NODES, ARCS, src, dst, cap, 2, SOURCES, 2, SINKS, 0, to->flow, to->side, &to->high,
                              &to->low);
    case 3:
        return provedflow_cut(NODES, ARCS, src, dst, cap, 2, SOURCES, 2, SINKS, 1, NULL, to->side, &to->high, &to->low);
    case 4:
        return provedflow_links(NODES, ARCS, src, dst, 2, SOURCES, 2, SINKS, 1, 1, &to->links);
    case 5:
        return provedflow_links(NODES, ARCS, src, dst, 0, NULL, 0, NULL, 0, 0, &to->links);
    case 6:
        return provedflow_links(NODES, ARCS, src, dst, 0, NULL, 0, NULL, 1, 0, &to->links);
    default:
        return provedflow_check(NODES, ARCS, src, dst, cap, 2, SOURCES, 2, SINKS, cap, &to->verdict, &to->high,
                                &to->low);
    }
}

/* Whether a call on which the requests after the first `granted` are refused does as it should; tells whether it ended.
 */
static int is_good(int which, long granted, int *ended) {
    static struct answer answer, before;
    uint32_t status;
    long held = taken;
    memset(&answer, 7, sizeof answer);
    memcpy(&before, &answer, sizeof answer);
    left = granted;
    status = call(which, &answer);
    *ended = left != 0 || status != PROVEDFLOW_MEMORY;
    left = -1;
    if (taken != held) {
        return 0;
    }
    return *ended ? status == PROVEDFLOW_OK : memcmp(&before, &answer, sizeof answer) == 0;
}

int main(void) {
    uint32_t state = 3;
    int which, i, passed = 0, failed = 0;
    for (i = 0; i < ARCS; i++) {
        state = state * 1664525u + 1013904223u;
        src[i] = (state >> 8) % NODES;
        state = state * 1664525u + 1013904223u;
        dst[i] = (state >> 8) % NODES;
        cap[i] = state % 50;
    }
    for (which = 0; which < 8; which++) {
        int ended = 0;
        long granted;
        for (granted = 0; !ended && granted < MOST_REQUESTS; granted++) {
            if (is_good(which, granted, &ended)) {
                passed++;
            } else {
                failed++;
                printf("memory: call %d after %ld requests\n", which, granted);
            }
        }
        /* At least one request is made, or nothing was refused. */
        if (granted < 2 || !ended) {
            failed++;
            printf("memory: call %d made %ld requests\n", which, granted - 1);
        }
    }
    printf("memory: %d passed, %d failed\n", passed, failed);
    return failed != 0;
}
