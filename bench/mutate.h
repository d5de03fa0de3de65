/* The mutation workload: four mutators, each with a directory of records that it reads, writes and replaces, and the
 * collector's step after every `pace` of their calls. Deterministic: both libraries get the same calls. */
#ifndef BENCH_MUTATE_H
#define BENCH_MUTATE_H

#include "heap.h"

#define MUTATORS 4
#define ENTRIES 512
#define DIRECTORY 15 /* the root that holds the directory; its records are entries of 2 + 2, which hold leaves of 0 + 1 */
#define START_EVERY 4096

struct mutate {
    struct heap *heap;
    u64 random;
    u32 pace;   /* mutators' calls for each step; 0 for no collector */
    u32 mutator;
    u32 calls, steps, cycles;
    u64 sum;    /* of the values read: the libraries must agree on it */
    int running;
};

/* Whether a segment is full: makes have used one up since it was swept. A start condemns part segments as well, but is
 * not made for these alone: after the first sweep some segment is always part, so cycle would follow cycle without a
 * pause, whether or not makes need room. */
static inline int some_full(const struct heap *h) {
    u32 states[BORVUKHAI_STATES_LENGTH(256, 16)];
    MUST(HEAP(states)(OVER(h), states, HEAP(states_length)(h->segments, h->kib)), 0);
    for (u32 segment = 0; segment < h->segments; segment++) {
        if (states[BORVUKHAI_STATE_WORDS * segment + BORVUKHAI_STATE_TAG] == BORVUKHAI_SEGMENT_FULL) return 1;
    }
    return 0;
}

static inline void collector_turn(struct mutate *w) {
    if (w->running) {
        u64 answer = HEAP(step)(OVER(w->heap));
        w->steps++;
        if (borvukhai_refusal(answer) != 0) wrong("step", answer, 0, __FILE__, __LINE__);
        if (borvukhai_step_kind(answer) == BORVUKHAI_STEP_DONE) w->running = 0, w->cycles++;
    } else if (w->calls % START_EVERY < w->pace && some_full(w->heap)) {
        MUST(HEAP(start)(OVER(w->heap)), 0);
        w->running = 1;
    }
}

/* After each call of a mutator. */
static inline void called(struct mutate *w, u64 answer, u64 expected) {
    if (answer != expected) wrong("a mutator's call", answer, expected, __FILE__, __LINE__);
    w->calls++;
    if (w->pace != 0 && w->calls % w->pace == 0) collector_turn(w);
}
#define CALL(w, call, ...) called(w, HEAP(call)(OVER((w)->heap), (w)->mutator, __VA_ARGS__), 0)

static inline u32 get_value(struct mutate *w, u32 root, u32 field) {
    u64 answer = HEAP(get)(OVER(w->heap), w->mutator, root, field);
    called(w, borvukhai_refusal(answer), 0);
    return borvukhai_result(answer);
}

static inline void read_leaf(struct mutate *w) {
    CALL(w, load, 0, DIRECTORY, below(&w->random, ENTRIES));
    CALL(w, load, 1, 0, below(&w->random, 2));
    w->sum = w->sum * 31 + get_value(w, 1, 0);
}

static inline void write_entry(struct mutate *w) {
    CALL(w, load, 0, DIRECTORY, below(&w->random, ENTRIES));
    CALL(w, put, 0, 1, w->calls);
    w->sum = w->sum * 31 + get_value(w, 0, 0);
}

static inline void replace_leaf(struct mutate *w) {
    CALL(w, load, 0, DIRECTORY, below(&w->random, ENTRIES));
    CALL(w, make, 1, 0, 1);
    CALL(w, put, 1, 0, w->calls);
    CALL(w, store, 0, below(&w->random, 2), 1);
}

static inline void replace_entry(struct mutate *w, u32 entry) {
    CALL(w, make, 0, 2, 2);
    for (u32 field = 0; field < 2; field++) {
        CALL(w, make, 1, 0, 1);
        CALL(w, put, 1, 0, w->calls);
        CALL(w, store, 0, field, 1);
    }
    CALL(w, store, DIRECTORY, entry, 0);
}

/* A leaf of one entry is shared with another one. */
static inline void share_leaf(struct mutate *w) {
    CALL(w, load, 0, DIRECTORY, below(&w->random, ENTRIES));
    CALL(w, load, 1, 0, 0);
    CALL(w, load, 2, DIRECTORY, below(&w->random, ENTRIES));
    CALL(w, store, 2, 1, 1);
}

static inline void shuffle_roots(struct mutate *w) {
    CALL(w, copy, 3, 0);
    called(w, HEAP(same)(OVER(w->heap), w->mutator, 3, 0), RESULT(1));
    CALL(w, clear, 3);
}

/* A turn of the mutator whose turn it is: its check, then one piece of work. */
static inline void mutate_turn(struct mutate *w) {
    u32 kind = below(&w->random, 100);
    called(w, HEAP(check)(OVER(w->heap), w->mutator), 0);
    if (kind < 30) read_leaf(w);
    else if (kind < 50) write_entry(w);
    else if (kind < 75) replace_leaf(w);
    else if (kind < 85) replace_entry(w, below(&w->random, ENTRIES));
    else if (kind < 95) share_leaf(w);
    else shuffle_roots(w);
    w->mutator = (w->mutator + 1) % MUTATORS;
}

/* Each mutator with its directory, every entry and leaf of it in place, and no collector yet. */
static inline struct mutate mutate_begin(struct heap *h) {
    struct mutate w = {h, SEED, 0, 0, 0, 0, 0, 0, 0};
    for (w.mutator = 0; w.mutator < MUTATORS; w.mutator++) {
        MUST(HEAP(attach)(OVER(h), w.mutator), 0);
        MUST(HEAP(make)(OVER(h), w.mutator, DIRECTORY, ENTRIES, 0), 0);
        for (u32 entry = 0; entry < ENTRIES; entry++) replace_entry(&w, entry);
    }
    w.mutator = w.calls = 0;
    return w;
}

#endif
