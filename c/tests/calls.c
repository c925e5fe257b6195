/* Each call of the library, by hand: answers, refusals, and that nothing is written where a call refuses.
 *
 * The last line is 'calls: N passed, M failed'. It is compiled as C and as C++. */
#include <stdio.h>
#include <string.h>

#include "provedflow.h"

static int passed, failed;

static void equal(const char *name, uint64_t found, uint64_t wanted) {
    if (found == wanted) {
        passed++;
    } else {
        failed++;
        printf("calls: %s: %llu where %llu is right\n", name, (unsigned long long)found, (unsigned long long)wanted);
    }
}

/* Four nodes and five arcs, from node 0 to node 3. Of the least capacity, 5, are the arcs that leave node 0, those that
 * come to node 3, and 1 + 2 + 2 around the nodes 0 and 1. */
enum { NODES = 4, ARCS = 5 };
static const uint32_t SRC[] = {0, 0, 1, 1, 2}, DST[] = {1, 2, 2, 3, 3};
static const uint64_t CAP[] = {3, 2, 1, 2, 3};
static const uint32_t SOURCE[] = {0}, SINK[] = {3}, INNER[] = {1, 2}, OUTER[] = {0, 3};

static void small_flow(void) {
    uint64_t flow[ARCS], high = 9, low = 9, other = 9;
    static const uint64_t only[] = {3, 2, 1, 2, 3};
    equal("flow", provedflow_flow(NODES, ARCS, SRC, DST, CAP, 1, SOURCE, 1, SINK, flow, &high, &low), PROVEDFLOW_OK);
    equal("flow, high", high, 0);
    equal("flow, low", low, 5);
    equal("flow, the only one", (uint64_t)memcmp(flow, only, sizeof flow), 0);
    equal("value alone", provedflow_flow(NODES, ARCS, SRC, DST, CAP, 1, SOURCE, 1, SINK, NULL, NULL, &other), 0);
    equal("value alone, low", other, 5);
    /* With two sources, 1 and 2: what the arcs to node 3 take. */
    equal("two sources", provedflow_flow(NODES, ARCS, SRC, DST, CAP, 2, INNER, 1, SINK, flow, &high, &low), 0);
    equal("two sources, low", low, 5);
    equal("two sources, node 0 has nothing to send", flow[0] + flow[1], 0);
    equal("two sources, the arcs to node 3 are full", flow[3] * 10 + flow[4], 23);
}

static void small_cuts(void) {
    uint64_t flow[ARCS], high = 9, low = 9;
    uint8_t side[NODES];
    static const uint8_t near[] = {1, 0, 0, 0}, far[] = {1, 1, 1, 0};
    equal("cut", provedflow_cut(NODES, ARCS, SRC, DST, CAP, 1, SOURCE, 1, SINK, 0, flow, side, &high, &low), 0);
    equal("cut, low", low, 5);
    equal("cut, side", (uint64_t)memcmp(side, near, sizeof side), 0);
    equal("cut near the sinks",
          provedflow_cut(NODES, ARCS, SRC, DST, CAP, 1, SOURCE, 1, SINK, 256, NULL, side, &high, &low), 0);
    equal("cut near the sinks, side", (uint64_t)memcmp(side, far, sizeof side), 0);
    equal("cut near the sinks, low", low, 5);
}

/* A path of three nodes, of two arcs of the same capacity: each of them is a minimum cut. */
static void cuts_of_a_path(void) {
    static const uint32_t src[] = {0, 1}, dst[] = {1, 2}, sink[] = {2};
    static const uint64_t cap[] = {2, 2};
    static const uint8_t near[] = {1, 0, 0}, far[] = {1, 1, 0}, kept[] = {9, 9, 9};
    uint64_t flow[] = {9, 9}, high = 9, low = 9;
    uint8_t side[] = {9, 9, 9};
    equal("a path, a side of too few cells",
          provedflow_cut_lists(3, src, 2, dst, 2, cap, 2, SOURCE, 1, sink, 1, 0, flow, 2, side, 2, &high, &low),
          PROVEDFLOW_LENGTHS);
    equal("a path, nothing written", (uint64_t)memcmp(side, kept, sizeof side) + flow[0] + flow[1] + high + low, 36);
    equal("a path", provedflow_cut(3, 2, src, dst, cap, 1, SOURCE, 1, sink, 0, flow, side, &high, &low), 0);
    equal("a path, near the source", (uint64_t)memcmp(side, near, sizeof side), 0);
    equal("a path", provedflow_cut(3, 2, src, dst, cap, 1, SOURCE, 1, sink, 1, flow, side, &high, &low), 0);
    equal("a path, near the sink", (uint64_t)memcmp(side, far, sizeof side), 0);
    equal("a path, value", high * 10 + low, 2);
    equal("a path, flows", flow[0] * 10 + flow[1], 22);
}

/* A circle of three nodes: one way round, and two without direction. */
static void links_of_a_circle(void) {
    static const uint32_t src[] = {0, 1, 2}, dst[] = {1, 2, 0}, sink[] = {2};
    uint64_t links = 9;
    equal("a circle", provedflow_links(3, 3, src, dst, 0, NULL, 0, NULL, 0, 0, &links), 0);
    equal("a circle, directed", links, 1);
    equal("a circle", provedflow_links(3, 3, src, dst, 0, NULL, 0, NULL, 1, 0, &links), 0);
    equal("a circle, undirected", links, 2);
    equal("a circle", provedflow_links(3, 3, src, dst, 1, SOURCE, 1, sink, 0, 256, &links), 0);
    equal("a circle, a pair", links, 1);
    equal("a circle", provedflow_links(3, 3, src, dst, 1, SOURCE, 1, sink, 256, 1, &links), 0);
    equal("a circle, an undirected pair", links, 2);
}

static void small_links(void) {
    uint64_t links = 9;
    /* No arc leaves node 3. Without direction, node 0 has two. */
    equal("links", provedflow_links(NODES, ARCS, SRC, DST, 0, NULL, 0, NULL, 0, 0, &links), 0);
    equal("links, directed", links, 0);
    equal("links", provedflow_links(NODES, ARCS, SRC, DST, 0, NULL, 0, NULL, 1, 0, &links), 0);
    equal("links, undirected", links, 2);
    equal("links", provedflow_links(NODES, ARCS, SRC, DST, 1, SOURCE, 1, SINK, 0, 1, &links), 0);
    equal("links of a pair", links, 2);
    equal("links", provedflow_links(NODES, ARCS, SRC, DST, 1, SINK, 1, SOURCE, 0, 2, &links), 0);
    equal("links of a pair, the wrong way", links, 0);
    equal("links", provedflow_links(NODES, ARCS, SRC, DST, 2, OUTER, 2, INNER, 1, 1, &links), 0);
    equal("links between two and two", links, 4);
}

/* Fewer than two nodes are no network, whether or not terminals are given. */
static void too_few_nodes(void) {
    uint64_t links = 9;
    uint32_t nodes, undirected;
    for (nodes = 0; nodes < 2; nodes++) {
        for (undirected = 0; undirected < 2; undirected++) {
            equal("too few nodes", provedflow_links(nodes, 0, NULL, NULL, 0, NULL, 0, NULL, undirected, 0, &links),
                  PROVEDFLOW_NODES);
        }
    }
    equal("too few nodes, nothing written", links, 9);
    equal("no node and no side", provedflow_cut(0, 0, NULL, NULL, NULL, 0, NULL, 0, NULL, 0, NULL, NULL, NULL, NULL),
          PROVEDFLOW_NODES);
}

static void small_checks(void) {
    static const struct {
        uint64_t flow[ARCS];
        uint32_t verdict;
        uint64_t told; /* the value, the arc or the node */
    } cases[] = {
        {{3, 2, 1, 2, 3}, PROVEDFLOW_GREATEST, 5},   {{0, 0, 0, 0, 0}, PROVEDFLOW_FEASIBLE, 0},
        {{2, 2, 0, 2, 2}, PROVEDFLOW_FEASIBLE, 4},   {{3, 2, 1, 4, 4}, PROVEDFLOW_OVER, 3},
        {{3, 2, 1, 2, 2}, PROVEDFLOW_UNBALANCED, 2}, {{2, 1, 0, 2, 1}, PROVEDFLOW_FEASIBLE, 3},
        {{3, 2, 2, 1, 4}, PROVEDFLOW_OVER, 2},       {{3, 2, 1, 1, 2}, PROVEDFLOW_UNBALANCED, 1},
    };
    static const uint64_t back[] = {1, 0, 0, 0, 0}, three[] = {3};
    static const uint32_t one[] = {1};
    uint32_t turned = 99;
    uint64_t upper = 9, lower = 9;
    size_t i;
    for (i = 0; i < sizeof cases / sizeof *cases; i++) {
        uint32_t verdict = 99;
        uint64_t high = 9, low = 9;
        equal("check",
              provedflow_check(NODES, ARCS, SRC, DST, CAP, 1, SOURCE, 1, SINK, cases[i].flow, &verdict, &high, &low),
              0);
        equal("check, verdict", verdict, cases[i].verdict);
        equal("check, high", high, 0);
        equal("check, low", low, cases[i].told);
    }
    /* From node 1 to node 0 leads no arc, and 1 comes the other way: the value is -1. */
    equal("check", provedflow_check(NODES, ARCS, SRC, DST, CAP, 1, INNER, 1, SOURCE, back, &turned, &upper, &lower), 0);
    equal("check, a negative value", turned, PROVEDFLOW_FEASIBLE);
    equal("check, a negative value, high", upper, UINT64_MAX);
    equal("check, a negative value, low", lower, UINT64_MAX);
    equal("check", provedflow_check(2, 1, one, SOURCE, three, 1, SOURCE, 1, one, three, &turned, &upper, &lower), 0);
    equal("check, a value of -3", turned, PROVEDFLOW_FEASIBLE);
    equal("check, a value of -3, high", upper, UINT64_MAX);
    equal("check, a value of -3, low", lower, UINT64_MAX - 2);
}

/* Three arcs of the greatest capacity beside each other: 3 * (2^64 - 1) is 2 * 2^64 + (2^64 - 3). */
static void wide_value(void) {
    static const uint32_t src[] = {0, 0, 0}, dst[] = {1, 1, 1}, sink[] = {1};
    static const uint64_t cap[] = {UINT64_MAX, UINT64_MAX, UINT64_MAX};
    uint64_t high = 9, low = 9;
    equal("a wide value", provedflow_flow(2, 3, src, dst, cap, 1, SOURCE, 1, sink, NULL, &high, &low), 0);
    equal("a wide value, high", high, 2);
    equal("a wide value, low", low, UINT64_MAX - 2);
}

static void no_arcs(void) {
    uint64_t high = 9, low = 9;
    uint8_t side[2] = {9, 9};
    uint32_t verdict = 9;
    static const uint32_t sink[] = {1};
    equal("no arcs", provedflow_cut(2, 0, NULL, NULL, NULL, 1, SOURCE, 1, sink, 0, NULL, side, &high, &low), 0);
    equal("no arcs, value", high + low, 0);
    equal("no arcs, side", (uint64_t)side[0] * 10 + side[1], 10);
    equal("no arcs", provedflow_check(2, 0, NULL, NULL, NULL, 1, SOURCE, 1, sink, NULL, &verdict, &high, &low), 0);
    equal("no arcs, verdict", verdict, PROVEDFLOW_GREATEST);
}

/* Calls all functions that take terminals on bad lists. Each has to answer the status, and to write nothing. */
static void refused(const char *name, uint32_t status, uint32_t nodes, size_t arcs, const uint32_t *src,
                    const uint32_t *dst, size_t n_sources, const uint32_t *sources, size_t n_sinks,
                    const uint32_t *sinks) {
    uint64_t flow[ARCS] = {7, 7, 7, 7, 7}, high = 7, low = 7, links = 7;
    static const uint64_t kept[] = {7, 7, 7, 7, 7};
    uint8_t side[NODES] = {7, 7, 7, 7};
    uint32_t verdict = 7;
    equal(name, provedflow_flow(nodes, arcs, src, dst, CAP, n_sources, sources, n_sinks, sinks, flow, &high, &low),
          status);
    equal(name,
          provedflow_cut(nodes, arcs, src, dst, CAP, n_sources, sources, n_sinks, sinks, 0, flow, side, &high, &low),
          status);
    equal(name, provedflow_links(nodes, arcs, src, dst, n_sources, sources, n_sinks, sinks, 0, 1, &links), status);
    equal(name,
          provedflow_check(nodes, arcs, src, dst, CAP, n_sources, sources, n_sinks, sinks, CAP, &verdict, &high, &low),
          status);
    equal("nothing written", (uint64_t)memcmp(flow, kept, sizeof flow), 0);
    equal("nothing written", high + low + links + verdict + side[0] + side[1] + side[2] + side[3], 56);
}

static void refusals(void) {
    static const uint32_t out[] = {0, 4, 1, 1, 2}, wide[] = {1, 2, 2, UINT32_MAX, 3}, twice[] = {3, 3}, none[] = {4};
    static const uint32_t both[] = {1, 3}, again[] = {0, 0};
    uint64_t high, low, flow[ARCS] = {7, 7, 7, 7, 7};
    uint8_t side[NODES];
    refused("one node", PROVEDFLOW_NODES, 1, ARCS, SRC, DST, 1, SOURCE, 1, SINK);
    refused("no node", PROVEDFLOW_NODES, 0, ARCS, SRC, DST, 1, SOURCE, 1, SINK);
    refused("too many nodes", PROVEDFLOW_NODES, PROVEDFLOW_MOST_NODES + 1u, ARCS, SRC, DST, 1, SOURCE, 1, SINK);
    refused("too many nodes by far", PROVEDFLOW_NODES, UINT32_MAX, ARCS, SRC, DST, 1, SOURCE, 1, SINK);
    refused("a source of an arc", PROVEDFLOW_ARC, NODES, ARCS, out, DST, 1, SOURCE, 1, SINK);
    refused("an end of an arc", PROVEDFLOW_ARC, NODES, ARCS, SRC, wide, 1, SOURCE, 1, SINK);
    refused("no source", PROVEDFLOW_TERMINALS, NODES, ARCS, SRC, DST, 0, NULL, 1, SINK);
    refused("no sink", PROVEDFLOW_TERMINALS, NODES, ARCS, SRC, DST, 1, SOURCE, 0, NULL);
    refused("a sink that is no node", PROVEDFLOW_TERMINALS, NODES, ARCS, SRC, DST, 1, SOURCE, 1, none);
    refused("a source that is no node", PROVEDFLOW_TERMINALS, NODES, ARCS, SRC, DST, 1, none, 1, SINK);
    refused("a source that is a sink", PROVEDFLOW_TERMINALS, NODES, ARCS, SRC, DST, 2, both, 1, SINK);
    refused("a source twice", PROVEDFLOW_TERMINALS, NODES, ARCS, SRC, DST, 2, again, 1, SINK);
    refused("a sink twice", PROVEDFLOW_TERMINALS, NODES, ARCS, SRC, DST, 1, SOURCE, 2, twice);
    equal(
        "lists of different lengths",
        provedflow_flow_lists(NODES, SRC, ARCS, DST, ARCS - 1, CAP, ARCS, SOURCE, 1, SINK, 1, flow, ARCS, &high, &low),
        PROVEDFLOW_LENGTHS);
    equal(
        "lists of different lengths",
        provedflow_flow_lists(NODES, SRC, ARCS, DST, ARCS, CAP, ARCS - 1, SOURCE, 1, SINK, 1, flow, ARCS, &high, &low),
        PROVEDFLOW_LENGTHS);
    equal(
        "lists of different lengths",
        provedflow_flow_lists(NODES, SRC, ARCS, DST, ARCS, CAP, ARCS, SOURCE, 1, SINK, 1, flow, ARCS - 1, &high, &low),
        PROVEDFLOW_LENGTHS);
    equal("no room for the sides",
          provedflow_cut(NODES, ARCS, SRC, DST, CAP, 1, SOURCE, 1, SINK, 0, flow, NULL, &high, &low),
          PROVEDFLOW_LENGTHS);
    /* More arcs than any memory holds: the number is refused, and no room is asked for. */
    equal("too many arcs, no flow wanted",
          provedflow_flow(NODES, SIZE_MAX, SRC, DST, CAP, 1, SOURCE, 1, SINK, NULL, &high, &low), PROVEDFLOW_LENGTHS);
    equal("too many arcs, no flow wanted",
          provedflow_cut(NODES, SIZE_MAX / 8, SRC, DST, CAP, 1, SOURCE, 1, SINK, 0, NULL, side, &high, &low),
          PROVEDFLOW_LENGTHS);
    equal("nothing written", flow[0] + flow[1] + flow[2] + flow[3] + flow[4], 35);
    equal("the bad arc", provedflow_bad_arc(NODES, ARCS, out, DST), 1);
    equal("the bad arc", provedflow_bad_arc(NODES, ARCS, SRC, wide), 3);
    equal("no bad arc", provedflow_bad_arc(NODES, ARCS, SRC, DST), ARCS);
}

static void words(void) {
    uint32_t status, other;
    for (status = 0; status < 7; status++) {
        for (other = 0; other < status; other++) {
            equal("each status has words of its own",
                  strcmp(provedflow_strerror(status), provedflow_strerror(other)) != 0, 1);
        }
    }
    equal("words of the greatest status", strcmp(provedflow_strerror(UINT32_MAX), provedflow_strerror(6)) == 0, 1);
}

/* More than a file may have: a ring of 1,250,000 nodes and 10,000,000 arcs, eight beside each other between neighbours.
 * What is refused is refused by its number, before any list is read. */
static void many(void) {
    enum { MANY_NODES = 1250000, MANY_ARCS = 10000000 };
    uint32_t *src = (uint32_t *)malloc(MANY_ARCS * sizeof *src), *dst = (uint32_t *)malloc(MANY_ARCS * sizeof *dst);
    uint64_t *cap = (uint64_t *)malloc(MANY_ARCS * sizeof *cap), high = 9, low = 9, links = 9;
    static const uint32_t sink[] = {MANY_NODES / 2};
    uint32_t i;
    for (i = 0; src && dst && cap && i < MANY_ARCS; i++) {
        src[i] = i / 8;
        dst[i] = (i / 8 + 1) % MANY_NODES;
        cap[i] = 1;
    }
    equal("many", provedflow_flow(MANY_NODES, MANY_ARCS, src, dst, cap, 1, SOURCE, 1, sink, NULL, &high, &low), 0);
    equal("many, value", low, 8);
    equal("many", provedflow_links(MANY_NODES, MANY_ARCS, src, dst, 1, SOURCE, 1, sink, 1, 1, &links), 0);
    equal("many, links", links, 16);
    equal("a node too many", provedflow_flow(PROVEDFLOW_MOST_NODES + 1u, MANY_ARCS, src, dst, cap, 1, SOURCE, 1, sink,
                                             cap, &high, &low), PROVEDFLOW_NODES);
    equal("an arc too many", provedflow_check(MANY_NODES, PROVEDFLOW_MOST_ARCS + 1u, src, dst, cap, 1, SOURCE, 1, sink,
                                              cap, &i, &high, &low), PROVEDFLOW_LENGTHS);
    equal("no room for an arc too many", provedflow_flow(MANY_NODES, PROVEDFLOW_MOST_ARCS + 1u, src, dst, cap, 1,
                                                         SOURCE, 1, sink, NULL, &high, &low), PROVEDFLOW_LENGTHS);
    equal("a link too many", provedflow_links(MANY_NODES, PROVEDFLOW_MOST_LINKS + 1u, src, dst, 1, SOURCE, 1, sink, 1,
                                              1, &links), PROVEDFLOW_LENGTHS);
    free(src);
    free(dst);
    free(cap);
}

int main(int argc, char **argv) {
    small_flow();
    small_cuts();
    cuts_of_a_path();
    small_links();
    too_few_nodes();
    links_of_a_circle();
    small_checks();
    wide_value();
    no_arcs();
    refusals();
    words();
    if (argc > 1 && strcmp(argv[1], "many") == 0) {
        many();
    }
    printf("calls: %d passed, %d failed\n", passed, failed);
    return failed != 0;
}
