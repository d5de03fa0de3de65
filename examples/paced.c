/* A heap kept in room by pacing: ten million calls of a mutator over 8 segments, records of three classes in a steady
 * mix, half of all blocks alive, and never a make refused "no room". After each make the collector does at most STEPS
 * steps (pacer.h). The live records hang on two directories of directories; each turn replaces one of them at random.
 *   paced        with the pacer; it fails where a make is refused
 *   paced late   the trap: a cycle begins when a make is refused, and runs to its end while the mutator waits */
#define _POSIX_C_SOURCE 199309L /* clock_gettime */
#include "pacer.h"

#include <stdio.h>
#include <string.h>
#include <time.h>

#define SEGMENTS 8u
#define KIB 16u /* the size of a segment */
#define STEPS 128u
#define OPERATIONS 10000000u
#define ROUNDS 5u
#define WORDS BORVUKHAI_LENGTH(SEGMENTS, KIB)
#define HEAP SEGMENTS, KIB, memory, WORDS
static uint32_t memory[WORDS], output[BORVUKHAI_STATES_LENGTH(SEGMENTS, KIB)];

enum { ID = 0 };                               /* the mutator */
enum { TOPS = 2, LEAF = 2, OLD = 3, NEW = 4 }; /* its roots: 0 and 1 are the two directories of leaves */
enum { WIDTH = 31, LEAVES = 18, LIVE = TOPS * LEAVES * WIDTH, NODES = TOPS + TOPS * LEAVES };

static struct pacer pacer;
static uint32_t expected[LIVE], operations, refusals, cycles, seed;
static int late;

/* Records by their number: of seven, four have a pointer and 6 values, two 14 values, one 30: classes 5, 6 and 7. */
static uint32_t values_of(uint32_t number) { return number % 7 < 4 ? 6 : number % 7 < 6 ? 14 : 30; }

/* Lengths in nanoseconds of calls, and of the collector's shares. Every round makes the same calls, so a call's length
 * is the least that it took: what the machine did meanwhile is left out. */
struct lengths {
    uint32_t count, least[OPERATIONS + 100];
};
static struct lengths calls, shares;
static uint32_t round_number;

static uint64_t now(void) {
    struct timespec t;
    clock_gettime(CLOCK_MONOTONIC, &t);
    return (uint64_t)t.tv_sec * 1000000000u + (uint64_t)t.tv_nsec;
}

static void note(struct lengths *of, uint64_t length) {
    uint32_t *least = &of->least[of->count++];
    *least = round_number == 0 || length < *least ? (uint32_t)length : *least;
}

static void say(const char *what, const struct lengths *of) {
    uint32_t i, longest = 0;
    for (i = 0; i < of->count; i++) {
        longest = of->least[i] > longest ? of->least[i] : longest;
    }
    printf("longest %s: %u ns, the least of %u rounds\n", what, (unsigned)longest, (unsigned)round_number);
}

/* A call of the mutator: it is timed, counted, and never refused. */
static int done(uint32_t refused, uint64_t begun) {
    note(&calls, now() - begun);
    operations++;
    if (refused != BORVUKHAI_OK) {
        fprintf(stderr, "operation %u: %s\n", (unsigned)operations, borvukhai_refusal_text(refused));
    }
    return refused == BORVUKHAI_OK;
}
#define DO(call) (begun = now(), done(call, begun))

/* A whole cycle while the mutator waits: what is left where a make was refused. */
static uint32_t collect_all(void) {
    struct borvukhai_stepped stepped = {0, 0, 0, 0};
    uint32_t refused = borvukhai_start(HEAP);
    while (refused == BORVUKHAI_OK && stepped.kind != BORVUKHAI_STEP_DONE) {
        refused = borvukhai_check(HEAP, ID);
        refused = refused ? refused : borvukhai_step_to(HEAP, &stepped);
    }
    cycles++;
    return refused;
}

/* A make with the collector's share after it. */
static uint32_t make(uint32_t to, uint32_t pointers, uint32_t values) {
    uint32_t refused = borvukhai_make(HEAP, ID, to, pointers, values);
    if (refused == BORVUKHAI_NO_ROOM) {
        refusals++;
        refused = late ? collect_all() : refused;
        refused = refused ? refused : borvukhai_make(HEAP, ID, to, pointers, values);
    }
    return refused;
}

/* The collector's share of a turn. */
static int share(uint32_t fields) {
    uint64_t begun = now();
    int ran = pacer.running;
    if (!late && pacer_made(&pacer, fields) != BORVUKHAI_OK) {
        return 0;
    }
    note(&shares, now() - begun);
    cycles += ran && !pacer.running;
    return 1;
}

/* A new record in root NEW, with its number as its value 0. */
static int renew(uint32_t slot, uint32_t value) {
    uint64_t begun;
    expected[slot] = value;
    return DO(make(NEW, 1, values_of(slot))) && share(1 + values_of(slot)) &&
           DO(borvukhai_put(HEAP, ID, NEW, 0, value)) && DO(borvukhai_store(HEAP, ID, LEAF, slot % WIDTH, NEW)) &&
           DO(borvukhai_check(HEAP, ID));
}

/* The directories, and every record once. */
static int build(void) {
    uint64_t begun;
    uint32_t slot, top, leaf;
    int well = 1;
    for (top = 0; well && top < TOPS; top++) {
        well = DO(make(top, WIDTH, 0)) && share(WIDTH);
    }
    for (slot = 0; well && slot < LIVE; slot++) {
        leaf = slot / WIDTH;
        if (slot % WIDTH == 0) {
            well = DO(make(LEAF, WIDTH, 0)) && share(WIDTH) &&
                   DO(borvukhai_store(HEAP, ID, leaf / LEAVES, leaf % LEAVES, LEAF));
        }
        well = well && renew(slot, slot);
    }
    return well;
}

/* One record is found, seen to be the one that was put there, and replaced. */
static int turn(uint32_t slot) {
    uint64_t begun;
    uint32_t value = 0, leaf = slot / WIDTH;
    return DO(borvukhai_load(HEAP, ID, LEAF, leaf / LEAVES, leaf % LEAVES)) &&
           DO(borvukhai_load(HEAP, ID, OLD, LEAF, slot % WIDTH)) &&
           DO(borvukhai_get_to(HEAP, ID, OLD, 0, &value)) && value == expected[slot] && renew(slot, operations);
}

static uint32_t random_slot(void) {
    seed ^= seed << 13;
    seed ^= seed >> 17;
    seed ^= seed << 5;
    return seed % LIVE;
}

/* The bytes of the blocks of all live records, of the heap's own. */
static uint32_t alive(void) {
    uint32_t slot, bytes = NODES << BORVUKHAI_CLASS_OF(WIDTH);
    for (slot = 0; slot < LIVE; slot++) {
        bytes += 1u << BORVUKHAI_CLASS_OF(1 + values_of(slot));
    }
    return bytes;
}

/* The load of the heap at the end: what its segments count. */
static void say_load(void) {
    uint32_t s, kept = 0, handed_out = 0;
    if (borvukhai_states(HEAP, output, BORVUKHAI_STATES_LENGTH(SEGMENTS, KIB)) != BORVUKHAI_OK) {
        return;
    }
    for (s = 0; s < SEGMENTS; s++) {
        kept += output[s * BORVUKHAI_STATE_WORDS + BORVUKHAI_STATE_KEPT];
        handed_out += output[s * BORVUKHAI_STATE_WORDS + BORVUKHAI_STATE_HANDED_OUT];
    }
    printf("%u blocks in use: %u kept by sweeps, %u handed out since\n", kept + handed_out, kept, handed_out);
}

/* The whole list of calls, from an opening. */
static int play(void) {
    int well = borvukhai_open(HEAP) == BORVUKHAI_OK && borvukhai_attach(HEAP, ID) == BORVUKHAI_OK;
    seed = 2463534242u;
    operations = refusals = cycles = calls.count = shares.count = 0;
    well = well && pacer_of(&pacer, SEGMENTS, KIB, memory, output, STEPS, 1) == BORVUKHAI_OK && build();
    while (well && operations < OPERATIONS) {
        well = turn(random_slot());
    }
    return well;
}

int main(int count, char **words) {
    int well = 1;
    late = count > 1 && strcmp(words[1], "late") == 0;
    for (round_number = 0; well && round_number < ROUNDS; round_number++) {
        well = play();
    }
    printf("%u operations, %u cycles; %u of %u bytes of blocks alive\n", operations, cycles, alive(),
           SEGMENTS * KIB * 1024u);
    if (!late) {
        printf("at most %u steps between two makes\n", STEPS);
    }
    printf("no room: %u times\n", refusals);
    say_load();
    say("call of the mutator", &calls);
    say("share of the collector", &shares);
    return well && (late || refusals == 0) ? 0 : 1;
}
