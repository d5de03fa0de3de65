/* A panel's progress bar: how far the bar of a cycle reaches, and that the cycle is done within it. Three mutators go
 * on making records meanwhile, each of them outside now and then. C is known from the start on, and B at mark: until
 * then the bar shows the farthest end that it can have. It prints a line for each cycle, and fails where one takes more
 * steps than its bar has. */
#include "borvukhai.h"

#include <stdio.h>

#define SEGMENTS 6u
#ifndef KIB
#define KIB 16u /* the size of a segment; -DKIB=32u for the other */
#endif
#define HEAP SEGMENTS, KIB, memory, BORVUKHAI_LENGTH(SEGMENTS, KIB) /* the first four arguments of every call */
static uint32_t memory[BORVUKHAI_LENGTH(SEGMENTS, KIB)], output[BORVUKHAI_STATES_LENGTH(SEGMENTS, KIB)];

enum { MUTATORS = 3, CYCLES = 12, TURNS = 100000 };
static const uint32_t values[MUTATORS] = {2, 6, 14}; /* of the records that each makes, with one pointer */

/* The bar: how far it is, how far it reaches now, and how far it reached before mark. */
struct bar {
    uint64_t at, end, farthest;
    uint32_t condemned; /* C */
};

static uint32_t seed = 2463534242u;
static uint32_t any(uint32_t below) {
    seed ^= seed << 13;
    seed ^= seed >> 17;
    seed ^= seed << 5;
    return seed % below;
}

static uint32_t look(void) { return borvukhai_states(HEAP, output, BORVUKHAI_STATES_LENGTH(SEGMENTS, KIB)); }

/* A cycle begins, and its bar with the farthest end that it can have. */
static uint32_t bar_start(struct bar *bar) {
    uint32_t refused = borvukhai_start(HEAP);
    refused = refused ? refused : look();
    bar->at = 0, bar->condemned = borvukhai_condemned(SEGMENTS, KIB, output);
    bar->farthest = bar->end = borvukhai_cycle_end(borvukhai_most_at_mark(SEGMENTS, KIB, output), bar->condemned);
    return refused;
}

/* One step, which moves the bar on unless it waits. The one that moves to mark says where the bar ends. */
static uint32_t bar_step(struct bar *bar, uint32_t *kind) {
    struct borvukhai_stepped stepped = {0, 0, 0, 0};
    uint32_t phase = BORVUKHAI_IDLE, refused = borvukhai_step_to(HEAP, &stepped);
    *kind = stepped.kind;
    bar->at += refused == BORVUKHAI_OK && *kind != BORVUKHAI_STEP_WAITING;
    if (refused != BORVUKHAI_OK || *kind != BORVUKHAI_STEP_MOVED) {
        return refused;
    }
    refused = borvukhai_phase_to(HEAP, &phase);
    if (refused == BORVUKHAI_OK && phase == BORVUKHAI_MARK) {
        refused = look();
        bar->end = borvukhai_cycle_end(borvukhai_blocks_in_use(SEGMENTS, KIB, output), bar->condemned);
    }
    return refused;
}

/* A mutator's turn: it checks, and makes a record, which keeps the one that the root had, or drops it with all behind
 * it. Where there is no room it goes on without. */
static uint32_t turn(uint32_t mutator) {
    uint32_t root = 1 + any(15), refused = borvukhai_check(HEAP, mutator);
    if (refused == BORVUKHAI_SIDE) {
        return any(4) ? (uint32_t)BORVUKHAI_OK : borvukhai_enter(HEAP, mutator);
    }
    refused = refused ? refused : borvukhai_make(HEAP, mutator, 0, 1, values[mutator]);
    if (refused == BORVUKHAI_NO_ROOM) {
        return borvukhai_clear(HEAP, mutator, root);
    }
    if (refused == BORVUKHAI_OK && any(16)) {
        refused = borvukhai_store(HEAP, mutator, 0, 0, root);
    }
    refused = refused ? refused : borvukhai_copy(HEAP, mutator, root, 0);
    return refused || any(64) ? refused : borvukhai_leave(HEAP, mutator);
}

/* A cycle beside the mutators' turns, a step after each; 1 where it was done within its bar. */
static int cycle(uint32_t number) {
    struct bar bar;
    uint32_t kind = BORVUKHAI_STEP_IDLE, refused = bar_start(&bar), turns = 0;
    int well = refused == BORVUKHAI_OK;
    while (well && kind != BORVUKHAI_STEP_DONE) {
        refused = turn(turns++ % MUTATORS);
        refused = refused ? refused : bar_step(&bar, &kind);
        well = refused == BORVUKHAI_OK && bar.at <= bar.end && bar.end <= bar.farthest && turns < TURNS;
    }
    printf("cycle %u: at most %lu steps by its start, at most %lu by its mark, done after %lu\n", (unsigned)number,
           (unsigned long)bar.farthest, (unsigned long)bar.end, (unsigned long)bar.at);
    if (refused != BORVUKHAI_OK) {
        fprintf(stderr, "cycle %u: %s\n", (unsigned)number, borvukhai_refusal_text(refused));
    }
    return well;
}

int main(void) {
    uint32_t number, mutator, refused = borvukhai_open(HEAP);
    int well;
    for (mutator = 0; mutator < MUTATORS; mutator++) {
        refused = refused ? refused : borvukhai_attach(HEAP, mutator);
    }
    well = refused == BORVUKHAI_OK;
    for (number = 1; well && number <= CYCLES; number++) {
        uint32_t turns = any(2000);
        while (well && turns-- != 0) {
            well = turn(turns % MUTATORS) == BORVUKHAI_OK;
        }
        well = well && cycle(number);
    }
    return well ? 0 : 1;
}
