/* provedflow.h: maximum flows, minimum cuts and edge connectivity, proved. For C99, and for C++ from 2011 on.
 *
 * A network has the nodes 0 to nodes - 1. Arc i leads from src[i] to dst[i] and may carry up to cap[i] units. Parallel
 * and opposite arcs, self-loops, arcs into a source and out of a sink are all accepted. There are one or more sources
 * and one or more sinks, and no node stands in these lists twice. Limits: 2 to 268,435,456 nodes, at most 1,073,741,824
 * arcs, capacities from 0 to 18,446,744,073,709,551,615. A value has 128 bits and comes in two words: it is
 * high * 2^64 + low. provedflow_links takes at most 536,870,912 arcs.
 *
 * All arrays are the caller's. Nothing of them is kept after a call, no memory is handed over, and there is nothing to
 * begin or to end. Calls on different arrays may run at once, in as many threads as you like. A call takes memory by
 * malloc, and gives it back before it returns.
 *
 * What you must ensure, since no call can test it:
 *   - Each pointer leads to as many elements as its count says, aligned as C aligns them. Where the count is 0, it may
 *     be NULL.
 *   - What a call writes (flow, side, high, low, links, verdict) overlaps nothing else that is passed to it.
 *   - While the call runs, nobody else writes what it reads, and nobody else reads or writes what it writes.
 *   - malloc, realloc and free belong to one allocator, which aligns blocks as C wants it.
 *   - No call is made from a signal handler, nor in a forked child of a process with threads.
 * Everything else is tested before it is used: the number of nodes, the ends of arcs, the terminals.
 *
 * Each function returns a status. If it isn't PROVEDFLOW_OK, nothing was written. Valid lists get PROVEDFLOW_OK or
 * PROVEDFLOW_MEMORY, as is proved of the exports; that the latter means refused memory is tested.
 *
 * Link with -lprovedflow; the library needs the C library alone.
 */
#ifndef PROVEDFLOW_H
#define PROVEDFLOW_H

#include <stddef.h>
#include <stdint.h>
#include <stdlib.h>

#if SIZE_MAX < 0xFFFFFFFFFFFFFFFF
#error "provedflow.h needs a size_t of 64 bits"
#endif

/* The version of this header. */
#define PROVEDFLOW_VERSION "0.1.0"

/* The most nodes, the most arcs, and the most arcs where links are counted. */
#define PROVEDFLOW_MOST_NODES 268435456
#define PROVEDFLOW_MOST_ARCS 1073741824
#define PROVEDFLOW_MOST_LINKS 536870912

#ifdef __cplusplus
extern "C" {
#endif

/* What a call answers. */
enum {
    PROVEDFLOW_OK = 0,        /* the answer was written */
    PROVEDFLOW_NODES = 1,     /* fewer than 2 nodes, or more than 268,435,456 */
    PROVEDFLOW_LENGTHS = 2,   /* too many arcs, lists whose lengths don't fit each other, or no room for the sides */
    PROVEDFLOW_ARC = 3,       /* an end of an arc is no node; provedflow_bad_arc finds it */
    PROVEDFLOW_TERMINALS = 4, /* no source or no sink, one that is no node, or a node that stands there twice */
    PROVEDFLOW_MEMORY = 5     /* memory was refused */
};

/* What provedflow_check finds. */
enum {
    PROVEDFLOW_GREATEST = 0,  /* it is feasible, and no feasible flow has a greater value */
    PROVEDFLOW_FEASIBLE = 1,  /* it is feasible, and another has a greater value */
    PROVEDFLOW_OVER = 2,      /* an arc carries more than its capacity */
    PROVEDFLOW_UNBALANCED = 3 /* what comes into a node that is no terminal isn't what leaves it */
};

/* The exports of the library, in which each list is a pointer that is never NULL, and then a length. Their contracts
 * are proved. The functions below are easier to call. */
uint32_t provedflow_flow_lists(uint32_t nodes, const uint32_t *src, size_t src_length, const uint32_t *dst,
                               size_t dst_length, const uint64_t *cap, size_t cap_length, const uint32_t *sources,
                               size_t sources_length, const uint32_t *sinks, size_t sinks_length, uint64_t *flow,
                               size_t flow_length, uint64_t *high, uint64_t *low);
uint32_t provedflow_cut_lists(uint32_t nodes, const uint32_t *src, size_t src_length, const uint32_t *dst,
                              size_t dst_length, const uint64_t *cap, size_t cap_length, const uint32_t *sources,
                              size_t sources_length, const uint32_t *sinks, size_t sinks_length,
                              uint32_t nearest_sinks, uint64_t *flow, size_t flow_length, uint8_t *side,
                              size_t side_length, uint64_t *high, uint64_t *low);
uint32_t provedflow_links_lists(uint32_t nodes, const uint32_t *src, size_t src_length, const uint32_t *dst,
                                size_t dst_length, const uint32_t *sources, size_t sources_length,
                                const uint32_t *sinks, size_t sinks_length, uint32_t undirected, uint32_t pair,
                                uint64_t *links);
uint32_t provedflow_check_lists(uint32_t nodes, const uint32_t *src, size_t src_length, const uint32_t *dst,
                                size_t dst_length, const uint64_t *cap, size_t cap_length, const uint32_t *sources,
                                size_t sources_length, const uint32_t *sinks, size_t sinks_length,
                                const uint64_t *flow, size_t flow_length, uint32_t *verdict, uint64_t *high,
                                uint64_t *low);

#ifdef __cplusplus
}
#endif

/* What a list of no elements leads to, since the library wants no NULL. Nothing is read or written there. */
static inline void *provedflow_some(const void *list) {
    static uint64_t nothing;
    return list ? (void *)(uintptr_t)list : (void *)&nothing;
}

#define PROVEDFLOW_U32(list) ((const uint32_t *)provedflow_some(list))
#define PROVEDFLOW_U64(list) ((const uint64_t *)provedflow_some(list))

/* Room for the flow of each arc, where the caller wants none of it; NULL for too many arcs, or where memory is
 * refused. */
static inline uint64_t *provedflow_room(size_t arcs) {
    return arcs > PROVEDFLOW_MOST_ARCS ? NULL : (uint64_t *)malloc(arcs ? arcs * sizeof(uint64_t) : 1);
}

/* Finds the greatest value of a flow from the sources to the sinks, and such a flow.
 *
 * flow has room for one number for each arc, and gets what each carries; NULL where only the value is wanted. high and
 * low get the two words of the value; each may be NULL. */
static inline uint32_t provedflow_flow(uint32_t nodes, size_t arcs, const uint32_t *src, const uint32_t *dst,
                                       const uint64_t *cap, size_t n_sources, const uint32_t *sources, size_t n_sinks,
                                       const uint32_t *sinks, uint64_t *flow, uint64_t *high, uint64_t *low) {
    uint64_t words[2];
    uint64_t *room = flow || !arcs ? NULL : provedflow_room(arcs);
    uint32_t status;
    if (!flow && arcs && !room) {
        return arcs > PROVEDFLOW_MOST_ARCS ? PROVEDFLOW_LENGTHS : PROVEDFLOW_MEMORY;
    }
    status = provedflow_flow_lists(nodes, PROVEDFLOW_U32(src), arcs, PROVEDFLOW_U32(dst), arcs, PROVEDFLOW_U64(cap),
                                   arcs, PROVEDFLOW_U32(sources), n_sources, PROVEDFLOW_U32(sinks), n_sinks,
                                   (uint64_t *)provedflow_some(flow ? flow : room), arcs, high ? high : &words[0],
                                   low ? low : &words[1]);
    free(room);
    return status;
}

/* Finds a minimum cut: the same as provedflow_flow, and for each node on which side of the cut it lies.
 *
 * side has room for one byte for each node, and gets 1 for a node on the source side, and 0 for one on the other. It
 * may not be NULL: then the status is PROVEDFLOW_LENGTHS, or PROVEDFLOW_NODES for 0 nodes. Where there are several
 * minimum cuts, it is the one nearest the sources, whose source side lies within that of each other; where
 * nearest_sinks isn't 0, it is the one nearest the sinks. The value is the capacity of the arcs that lead from the
 * source side to the other. flow, high and low may be NULL. */
static inline uint32_t provedflow_cut(uint32_t nodes, size_t arcs, const uint32_t *src, const uint32_t *dst,
                                      const uint64_t *cap, size_t n_sources, const uint32_t *sources, size_t n_sinks,
                                      const uint32_t *sinks, uint32_t nearest_sinks, uint64_t *flow, uint8_t *side,
                                      uint64_t *high, uint64_t *low) {
    uint64_t words[2];
    uint64_t *room = flow || !arcs ? NULL : provedflow_room(arcs);
    uint32_t status;
    if (!flow && arcs && !room) {
        return arcs > PROVEDFLOW_MOST_ARCS ? PROVEDFLOW_LENGTHS : PROVEDFLOW_MEMORY;
    }
    status = provedflow_cut_lists(nodes, PROVEDFLOW_U32(src), arcs, PROVEDFLOW_U32(dst), arcs, PROVEDFLOW_U64(cap),
                                  arcs, PROVEDFLOW_U32(sources), n_sources, PROVEDFLOW_U32(sinks), n_sinks,
                                  nearest_sinks, (uint64_t *)provedflow_some(flow ? flow : room), arcs,
                                  (uint8_t *)provedflow_some(side), side ? nodes : 0, high ? high : &words[0],
                                  low ? low : &words[1]);
    free(room);
    return status;
}

/* Finds the edge connectivity: how many arcs must fail before some node is cut off from another. It is the least
 * number of arcs that leave a set of nodes that is neither empty nor all.
 *
 * Where undirected isn't 0, arcs have no direction: those count that have exactly one end in the set. Where pair isn't
 * 0, only sets count that have all sources inside and all sinks outside; else the lists of terminals are ignored. links
 * gets the number. */
static inline uint32_t provedflow_links(uint32_t nodes, size_t arcs, const uint32_t *src, const uint32_t *dst,
                                        size_t n_sources, const uint32_t *sources, size_t n_sinks,
                                        const uint32_t *sinks, uint32_t undirected, uint32_t pair, uint64_t *links) {
    return provedflow_links_lists(nodes, PROVEDFLOW_U32(src), arcs, PROVEDFLOW_U32(dst), arcs, PROVEDFLOW_U32(sources),
                                  pair ? n_sources : 0, PROVEDFLOW_U32(sinks), pair ? n_sinks : 0, undirected, pair,
                                  links);
}

/* Checks whether a flow, wherever it comes from, has the greatest value.
 *
 * verdict gets the first of these that applies: PROVEDFLOW_OVER, PROVEDFLOW_UNBALANCED, PROVEDFLOW_FEASIBLE,
 * PROVEDFLOW_GREATEST. high and low get two words, and each may be NULL: with PROVEDFLOW_OVER the first such arc, with
 * PROVEDFLOW_UNBALANCED the first such node, and else the value, which is negative with PROVEDFLOW_FEASIBLE where more
 * comes into the sources than leaves them (as in two's complement of 128 bits). */
static inline uint32_t provedflow_check(uint32_t nodes, size_t arcs, const uint32_t *src, const uint32_t *dst,
                                        const uint64_t *cap, size_t n_sources, const uint32_t *sources, size_t n_sinks,
                                        const uint32_t *sinks, const uint64_t *flow, uint32_t *verdict, uint64_t *high,
                                        uint64_t *low) {
    uint64_t words[2];
    return provedflow_check_lists(nodes, PROVEDFLOW_U32(src), arcs, PROVEDFLOW_U32(dst), arcs, PROVEDFLOW_U64(cap),
                                  arcs, PROVEDFLOW_U32(sources), n_sources, PROVEDFLOW_U32(sinks), n_sinks,
                                  PROVEDFLOW_U64(flow), arcs, verdict, high ? high : &words[0], low ? low : &words[1]);
}

/* The first arc with an end that is no node; arcs where there is none. */
static inline size_t provedflow_bad_arc(uint32_t nodes, size_t arcs, const uint32_t *src, const uint32_t *dst) {
    size_t i = 0;
    while (i < arcs && src[i] < nodes && dst[i] < nodes) {
        i++;
    }
    return i;
}

/* What a status means, in a few words. */
static inline const char *provedflow_strerror(uint32_t status) {
    static const char *const words[] = {"done",
                                        "number of nodes out of range",
                                        "too many arcs, or lists of different lengths",
                                        "an end of an arc is no node",
                                        "a source or a sink is missing, is no node, or stands there twice",
                                        "out of memory"};
    return status < sizeof words / sizeof *words ? words[status] : "unknown status";
}

#undef PROVEDFLOW_U32
#undef PROVEDFLOW_U64

#endif
