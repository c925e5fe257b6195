/* Answers problems by the library. Standard input has problems, each as numbers in decimals: nodes, arcs, how many
 * sources, how many sinks, the sources, the sinks, and of each arc its ends and its capacity; nodes are counted from 0.
 * For each problem come lines 'value HIGH LOW', 'flow ..' with the flow of each arc, 'near ..' and 'far ..' with the
 * side of each node for the two cuts, 'links ..' with four numbers (directed and undirected, and the same of the pair),
 * and 'check ..' with the verdict on the flow found, and on that flow with 1 more on the first arc that has room. */
#include <inttypes.h>
#include <stdio.h>

#include "provedflow.h"

static void *room(size_t count, size_t size) {
    void *piece = malloc(count ? count * size : 1);
    if (!piece) {
        exit(4);
    }
    return piece;
}

static void must(int good) {
    if (!good) {
        printf("failed\n");
        exit(1);
    }
}

static uint32_t *read_list(size_t count) {
    uint32_t *list = (uint32_t *)room(count, sizeof *list);
    size_t i;
    for (i = 0; i < count; i++) {
        must(scanf("%" SCNu32, &list[i]) == 1);
    }
    return list;
}

static void put_side(const char *word, uint32_t nodes, const uint8_t *side) {
    uint32_t v;
    printf("%s", word);
    for (v = 0; v < nodes; v++) {
        printf(" %d", side[v]);
    }
    printf("\n");
}

static void answer(uint32_t nodes, size_t arcs, size_t a, size_t b) {
    uint32_t *s = read_list(a), *t = read_list(b), *src = (uint32_t *)room(arcs, sizeof *src);
    uint32_t *dst = (uint32_t *)room(arcs, sizeof *dst), verdict, undirected, pair;
    uint64_t *cap = (uint64_t *)room(arcs, sizeof *cap), *flow = (uint64_t *)room(arcs, sizeof *flow), high, low, links;
    uint8_t *side = (uint8_t *)room(nodes, 1);
    size_t i;
    for (i = 0; i < arcs; i++) {
        must(scanf("%" SCNu32 "%" SCNu32 "%" SCNu64, &src[i], &dst[i], &cap[i]) == 3);
    }
    must(provedflow_cut(nodes, arcs, src, dst, cap, a, s, b, t, 0, flow, side, &high, &low) == PROVEDFLOW_OK);
    put_side("near", nodes, side);
    must(provedflow_cut(nodes, arcs, src, dst, cap, a, s, b, t, 1, flow, side, &high, &low) == PROVEDFLOW_OK);
    put_side("far", nodes, side);
    must(provedflow_flow(nodes, arcs, src, dst, cap, a, s, b, t, flow, &high, &low) == PROVEDFLOW_OK);
    printf("value %" PRIu64 " %" PRIu64 "\nflow", high, low);
    for (i = 0; i < arcs; i++) {
        printf(" %" PRIu64, flow[i]);
    }
    printf("\nlinks");
    for (pair = 0; pair < 2; pair++) {
        for (undirected = 0; undirected < 2; undirected++) {
            must(provedflow_links(nodes, arcs, src, dst, a, s, b, t, undirected, pair, &links) == PROVEDFLOW_OK);
            printf(" %" PRIu64, links);
        }
    }
    must(provedflow_check(nodes, arcs, src, dst, cap, a, s, b, t, flow, &verdict, &high, &low) == PROVEDFLOW_OK);
    printf("\ncheck %" PRIu32, verdict);
    for (i = 0; i < arcs && flow[i] == cap[i]; i++) {
    }
    if (i < arcs) {
        flow[i]++;
    }
    must(provedflow_check(nodes, arcs, src, dst, cap, a, s, b, t, flow, &verdict, &high, &low) == PROVEDFLOW_OK);
    printf(" %" PRIu32 "\n", verdict);
    free(s), free(t), free(src), free(dst), free(cap), free(flow), free(side);
}

int main(void) {
    uint32_t nodes;
    size_t arcs, a, b;
    while (scanf("%" SCNu32 "%zu%zu%zu", &nodes, &arcs, &a, &b) == 4) {
        answer(nodes, arcs, a, b);
    }
    return 0;
}
