/* Heaps in a wanted state: records of many pointers, full and part segments, a graph that fills the heap, a handshake
 * answered, a whole cycle. */
#ifndef BENCH_BUILD_H
#define BENCH_BUILD_H

#include "heap.h"

/* In root `to` a record of so many pointers, each to a new record of 0 + 1; after each of them `dead` more that nobody holds. */
static inline void build_fan(struct heap *h, u32 mutator, u32 to, u32 pointers, u32 dead) {
    u32 leaf = to == 0 ? 1 : 0;
    MUST(HEAP(make)(OVER(h), mutator, to, pointers, 0), 0);
    for (u32 field = 0; field < pointers; field++) {
        MUST(HEAP(make)(OVER(h), mutator, leaf, 0, 1), 0);
        MUST(HEAP(store)(OVER(h), mutator, to, field, leaf), 0);
        for (u32 i = 0; i < dead; i++) MUST(HEAP(make)(OVER(h), mutator, leaf, 0, 1), 0);
    }
    MUST(HEAP(clear)(OVER(h), mutator, leaf), 0);
}

/* One full segment of class 12, all of it dead, so that a cycle has a segment to sweep. */
static inline void build_full_segment(struct heap *h, u32 mutator) {
    for (u32 i = 0; i < BORVUKHAI_BLOCKS(h->kib, 12); i++) MUST(HEAP(make)(OVER(h), mutator, 0, 0, 1023), 0);
    MUST(HEAP(clear)(OVER(h), mutator, 0), 0);
}

/* Dead records of one shape until there is no room: every segment is full. Answers how many. */
static inline u32 build_dead(struct heap *h, u32 pointers, u32 values) {
    u32 made = 0, refusal;
    while ((refusal = HEAP(make)(OVER(h), 0, 0, pointers, values)) == 0) made++;
    MUST(refusal, BORVUKHAI_NO_ROOM);
    MUST(HEAP(clear)(OVER(h), 0, 0), 0);
    return made;
}

/* Records of 4 + 11 until there is no room; the one in root 0 reaches all live ones. Each holds the one before it and three
 * random ones among the last held in roots 2 to 13. After each live record come `dead` dead ones. Answers how many live. */
static inline u32 build_graph(struct heap *h, u32 dead) {
    u64 random = SEED;
    u32 made = 0, live = 0, refusal;
    for (;; made++) {
        if ((refusal = HEAP(make)(OVER(h), 0, 1, 4, 11)) != 0) break;
        if (made % (dead + 1) != 0) continue;
        MUST(HEAP(store)(OVER(h), 0, 1, 0, 0), 0);
        for (u32 field = 1; field < 4; field++) MUST(HEAP(store)(OVER(h), 0, 1, field, 2 + below(&random, 12)), 0);
        MUST(HEAP(put)(OVER(h), 0, 1, 10, live++), 0);
        MUST(HEAP(copy)(OVER(h), 0, 2 + below(&random, 12), 1), 0);
        MUST(HEAP(copy)(OVER(h), 0, 0, 1), 0);
    }
    MUST(refusal, BORVUKHAI_NO_ROOM);
    MUST(HEAP(get)(OVER(h), 0, 0, 10), RESULT(live - 1));
    for (u32 root = 1; root < 14; root++) MUST(HEAP(clear)(OVER(h), 0, root), 0);
    return live;
}

/* Mutators 1 to `mutators` outside, each with sixteen records of its own; mutator 0 too where they are all 32. */
static inline void build_outside(struct heap *h, u32 mutators) {
    heap_reopen(h);
    build_full_segment(h, 0);
    for (u32 m = 1; m <= mutators && m < 32; m++) MUST(HEAP(attach)(OVER(h), m), 0);
    for (u32 m = mutators == 32 ? 0 : 1; m <= mutators && m < 32; m++) {
        for (u32 root = 0; root < 16; root++) MUST(HEAP(make)(OVER(h), m, root, 1, 1), 0);
        MUST(HEAP(leave)(OVER(h), m), 0);
    }
    MUST(HEAP(start)(OVER(h)), 0);
}

/* Mutator 0, the only one, acknowledges the first and the second handshake: the phase is mark. */
static inline void build_handshakes(struct heap *h) {
    for (u32 i = 0; i < 2; i++) {
        MUST(HEAP(step)(OVER(h)), STEP(WAITING) | (u64)1 << 40);
        MUST(HEAP(check)(OVER(h), 0), 0);
        MUST(HEAP(step)(OVER(h)), STEP(MOVED));
    }
}

/* Mark to its end: sweep is next. Answers how many records it marked. */
static inline u32 build_marked(struct heap *h) {
    u32 traced = 0;
    u64 answer;
    while ((answer = HEAP(step)(OVER(h))) == STEP(TRACED)) traced++;
    MUST(answer, STEP(MOVED));
    return traced;
}

/* A whole cycle with mutator 0 alone. */
static inline void build_cycle(struct heap *h) {
    u64 answer;
    MUST(HEAP(start)(OVER(h)), 0);
    build_handshakes(h);
    build_marked(h);
    while (borvukhai_step_kind(answer = HEAP(step)(OVER(h))) == BORVUKHAI_STEP_SWEPT) continue;
    MUST(answer, STEP(DONE));
}

/* Every segment part, of class 3, each second block in use and reached from root 0: a list of records of 1 + 0, after
 * each of which a dead one was made and swept. */
static inline void build_parts(struct heap *h) {
    u32 refusal;
    while ((refusal = HEAP(make)(OVER(h), 0, 1, 1, 0)) == 0) {
        MUST(HEAP(store)(OVER(h), 0, 1, 0, 0), 0);
        MUST(HEAP(copy)(OVER(h), 0, 0, 1), 0);
        MUST(HEAP(make)(OVER(h), 0, 1, 1, 0), 0);
    }
    MUST(refusal, BORVUKHAI_NO_ROOM);
    MUST(HEAP(clear)(OVER(h), 0, 1), 0);
    build_cycle(h);
}

/* Every segment part, half of its blocks in use, by two graphs of records of 4 + 11 as build_graph's: root 0 reaches
 * the one, root 1 the other. Answers how many records each has. */
static inline u32 build_two_graphs(struct heap *h) {
    u64 random = SEED;
    u32 made = 0, refusal;
    for (;; made++) {
        u32 graph = made % 4, recent = 2 + 6 * graph;
        if ((refusal = HEAP(make)(OVER(h), 0, 14, 4, 11)) != 0) break;
        if (graph >= 2) continue;
        MUST(HEAP(store)(OVER(h), 0, 14, 0, graph), 0);
        for (u32 field = 1; field < 4; field++) MUST(HEAP(store)(OVER(h), 0, 14, field, recent + below(&random, 6)), 0);
        MUST(HEAP(copy)(OVER(h), 0, recent + below(&random, 6), 14), 0);
        MUST(HEAP(copy)(OVER(h), 0, graph, 14), 0);
    }
    MUST(refusal, BORVUKHAI_NO_ROOM);
    for (u32 root = 2; root < 15; root++) MUST(HEAP(clear)(OVER(h), 0, root), 0);
    build_cycle(h);
    return made / 4;
}

#endif
