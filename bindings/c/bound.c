/* How long a cycle can be, at both segment sizes, against figures that were reckoned by hand from document 01 and
 * requests No. 6 and 7: the steps that are neither refused nor answered waiting, the blocks in use when the phase
 * became mark (B), the condemned segments (C), and what a look before mark says that B can be at most. It prints a line
 * for each cycle, and says on the error output what was expected where something else came. */
#include "borvukhai.h"

#include <stdio.h>
#include <string.h>

#define MOST 3u /* segments */

static uint32_t segments, kib;
static uint32_t all;    /* the blocks that a free segment may be taken for: 2,048 of class 3 at 16 KiB, 4,096 at 32 */
static uint32_t class_; /* the class that has four blocks: 12 at 16 KiB, 13 at 32 */
static uint32_t memory[BORVUKHAI_LENGTH(MOST, 32u)];
static uint32_t output[BORVUKHAI_STATES_LENGTH(MOST, 32u)];
static uint32_t scratch[BORVUKHAI_SCRATCH_LENGTH(MOST, 32u)];
#define HEAP segments, kib, memory, BORVUKHAI_LENGTH(segments, kib)

static int checks;
static int failures;

static void expect(const char *what, uint64_t got, uint64_t wanted) {
    checks++;
    if (got != wanted) {
        fprintf(stderr, "%s: %llu, expected %llu\n", what, (unsigned long long)got, (unsigned long long)wanted);
        failures++;
    }
}

static void ok(const char *what, uint32_t answer) { expect(what, answer, BORVUKHAI_OK); }

/* A heap of so many segments with mutator 0 inside, in memory that was not 0. */
static void opened(uint32_t count) {
    segments = count;
    memset(memory, 0xa5, sizeof memory);
    ok("open", borvukhai_open(HEAP));
    ok("attach", borvukhai_attach(HEAP, 0));
}

/* Four of these fill a segment. */
static uint32_t refusal(uint32_t mutator, uint32_t to) {
    return borvukhai_make(HEAP, mutator, to, 1, kib == 32 ? 1200 : 600);
}

static void make(uint32_t mutator, uint32_t to) { ok("make", refusal(mutator, to)); }

static void four(void) {
    uint32_t root;
    for (root = 0; root < 4; root++) {
        make(0, root);
    }
}

/* A look at the states, over memory that passes the examination. */
static void look(void) {
    ok("states", borvukhai_states(HEAP, output, BORVUKHAI_STATES_LENGTH(segments, kib)));
    expect("sound", (uint64_t)borvukhai_is_sound(HEAP, scratch, BORVUKHAI_SCRATCH_LENGTH(segments, kib)), 1);
}

/* The cycle that runs: what is counted of its steps, C, and the far end by a look before mark and by the one there. */
struct cycle {
    uint64_t steps, farthest, end;
    uint32_t condemned;
};

/* A start, and what the look after it says: C, and the most that B can be. */
static void start(struct cycle *cycle, uint32_t condemned, uint64_t most) {
    ok("start", borvukhai_start(HEAP));
    look();
    expect("C", borvukhai_condemned(segments, kib, output), condemned);
    expect("the most that B can be", borvukhai_most_at_mark(segments, kib, output), most);
    cycle->steps = 0, cycle->end = 0, cycle->condemned = borvukhai_condemned(segments, kib, output);
    cycle->farthest = borvukhai_cycle_end(most, cycle->condemned);
}

/* One step, which is counted unless it waits. */
static uint32_t step(struct cycle *cycle) {
    struct borvukhai_stepped did = {0, 0, 0, 0};
    ok("step", borvukhai_step_to(HEAP, &did));
    cycle->steps += did.kind != BORVUKHAI_STEP_WAITING;
    return did.kind;
}

/* A handshake, mutator 0 inside and nobody else: it waits for it once. */
static void handshake(struct cycle *cycle) {
    expect("a step before the check", step(cycle), BORVUKHAI_STEP_WAITING);
    ok("check", borvukhai_check(HEAP, 0));
    expect("a step after it", step(cycle), BORVUKHAI_STEP_MOVED);
}

/* The phase became mark, with B blocks in use; the condemned segments are those of the start. */
static void at_mark(struct cycle *cycle, uint64_t blocks) {
    look();
    expect("B", borvukhai_blocks_in_use(segments, kib, output), blocks);
    expect("C at mark", borvukhai_condemned(segments, kib, output), cycle->condemned);
    cycle->end = borvukhai_cycle_end(borvukhai_blocks_in_use(segments, kib, output), cycle->condemned);
    expect("no further than before mark", cycle->end <= cycle->farthest, 1);
}

/* The rest of a cycle, which is counted so often in all, of at most so many steps. */
static void to_done(const char *name, struct cycle *cycle, uint64_t steps, uint64_t end) {
    while (cycle->steps <= cycle->farthest && step(cycle) != BORVUKHAI_STEP_DONE) {
    }
    printf("%s: %llu steps of at most %llu, before mark of at most %llu\n", name, (unsigned long long)cycle->steps,
           (unsigned long long)cycle->end, (unsigned long long)cycle->farthest);
    expect("steps", cycle->steps, steps);
    expect("B + C + 4", cycle->end, end);
    expect("within", cycle->steps <= cycle->end, 1);
}

/* Document 01's whole case: of four records three are reached. Segment 1 is free, and may be taken for any class. */
static void whole_case(void) {
    struct cycle cycle;
    opened(2);
    four();
    ok("store", borvukhai_store(HEAP, 0, 0, 0, 1));
    ok("clear", borvukhai_clear(HEAP, 0, 1));
    ok("clear", borvukhai_clear(HEAP, 0, 2));
    start(&cycle, 1, 4 + all);
    handshake(&cycle);
    handshake(&cycle);
    at_mark(&cycle, 4);
    to_done("whole case", &cycle, 8, 9);
}

/* All four are reached: the bound itself, in the only segment, where it was known at the start. */
static void all_reached(void) {
    struct cycle cycle;
    opened(1);
    four();
    start(&cycle, 1, 4);
    handshake(&cycle);
    handshake(&cycle);
    at_mark(&cycle, 4);
    to_done("all reached", &cycle, 9, 9);
    expect("the far end before mark", cycle.farthest, 9);
}

/* Nothing in use: two handshakes, the mark, done. */
static void nothing(void) {
    struct cycle cycle;
    opened(1);
    start(&cycle, 0, all);
    handshake(&cycle);
    handshake(&cycle);
    at_mark(&cycle, 0);
    to_done("nothing in use", &cycle, 4, 4);
}

/* A part segment is condemned too: three blocks in use of its four, and no make takes the fourth; all are reached. */
static void part_segment(void) {
    struct cycle cycle;
    opened(1);
    make(0, 0);
    make(0, 1);
    ok("store", borvukhai_store(HEAP, 0, 1, 0, 0));
    make(0, 2);
    ok("store", borvukhai_store(HEAP, 0, 2, 0, 1));
    ok("spawn", borvukhai_spawn(HEAP, 1, 0, 2));
    ok("detach", borvukhai_detach(HEAP, 0));
    ok("leave", borvukhai_leave(HEAP, 1)); /* the collector acknowledges for it: no step waits */
    start(&cycle, 1, 3);
    expect("a handshake with nobody inside", step(&cycle), BORVUKHAI_STEP_MOVED);
    expect("and another", step(&cycle), BORVUKHAI_STEP_MOVED);
    at_mark(&cycle, 3);
    to_done("a part segment", &cycle, 8, 8);
}

/* Why B is that of mark: two records made in the first handshake are reached, and not marked from birth. By the blocks
 * in use at the start, none, there would be 4 steps. The mutator then holds a segment of four blocks; one is free. */
static void made_in_handshake(void) {
    struct cycle cycle;
    opened(2);
    start(&cycle, 0, all + all);
    make(0, 0);
    make(0, 1);
    look();
    expect("the most, one segment held", borvukhai_most_at_mark(segments, kib, output), 4 + all);
    handshake(&cycle);
    handshake(&cycle);
    at_mark(&cycle, 2);
    to_done("made in a handshake", &cycle, 6, 6);
}

/* What is made in mark is born marked: it adds blocks in use, and no step. */
static void made_in_mark(void) {
    struct cycle cycle;
    opened(3);
    four();
    start(&cycle, 1, 4 + all + all);
    handshake(&cycle);
    handshake(&cycle);
    at_mark(&cycle, 4);
    make(0, 4);
    make(0, 5);
    look();
    expect("blocks in use later", borvukhai_blocks_in_use(segments, kib, output), 6);
    to_done("made in mark", &cycle, 9, 9);
}

/* A free segment is filled with the smallest records in a handshake, and so is a held one: B is the most that it can
 * be. The last 16 of the one and all four of the other are in roots; the rest is dead, and never traced. */
static void filled_in_handshake(void) {
    struct cycle cycle;
    uint32_t made;
    opened(2);
    ok("attach", borvukhai_attach(HEAP, 1));
    make(1, 0);
    start(&cycle, 0, 4 + all);
    for (made = 0; made < all; made++) {
        ok("make", borvukhai_make(HEAP, 0, made % 16, 1, 0));
    }
    for (made = 1; made < 4; made++) {
        make(1, made);
    }
    expect("no room", refusal(1, 4), BORVUKHAI_NO_ROOM);
    ok("leave", borvukhai_leave(HEAP, 1));
    handshake(&cycle);
    handshake(&cycle);
    at_mark(&cycle, 4 + all);
    expect("the far end before mark", cycle.farthest, cycle.end);
    to_done("filled in a handshake", &cycle, 16 + 4 + 4, 4 + all + 4);
}

/* The words of a look that no heap has: no sum wraps, and a class that is none has no blocks. */
static void any_words(void) {
    uint32_t at, many = 0xffffffffu;
    for (at = 0; at < 2 * BORVUKHAI_STATE_WORDS; at++) {
        output[at] = many;
    }
    expect("blocks in use", borvukhai_blocks_in_use(2, kib, output), 17179869180u);
    expect("condemned", borvukhai_condemned(2, kib, output), 0);
    expect("the most", borvukhai_most_at_mark(2, kib, output), 0);
    output[BORVUKHAI_STATE_TAG] = BORVUKHAI_SEGMENT_CONDEMNED;
    output[BORVUKHAI_STATE_WORDS + BORVUKHAI_STATE_TAG] = BORVUKHAI_SEGMENT_FREE;
    expect("one condemned", borvukhai_condemned(2, kib, output), 1);
    expect("the most, one condemned and one free", borvukhai_most_at_mark(2, kib, output), 8589934590u + all);
    expect("the end", borvukhai_cycle_end(8589934590u, 256), 8589934850u);
}

/* Each state with the class of four blocks, and two of them in use. */
static void each_state(void) {
    const uint32_t most[5] = {all, 4, 4, 4, 2};
    uint32_t tag;
    for (tag = BORVUKHAI_SEGMENT_FREE; tag <= BORVUKHAI_SEGMENT_CONDEMNED; tag++) {
        const uint32_t words[6] = {tag, class_, 2, 0, 1, 1};
        expect("in use", borvukhai_blocks_in_use(1, kib, words), 2);
        expect("condemned", borvukhai_condemned(1, kib, words), tag == BORVUKHAI_SEGMENT_CONDEMNED);
        expect("the most", borvukhai_most_at_mark(1, kib, words), most[tag]);
    }
}

/* A count or a size that is none: no word is read. */
static void none(uint32_t count, uint32_t size) {
    const uint32_t words[6] = {BORVUKHAI_SEGMENT_CONDEMNED, class_, 2, 0, 1, 1};
    expect("in use", borvukhai_blocks_in_use(count, size, words), 0);
    expect("condemned", borvukhai_condemned(count, size, words), 0);
    expect("the most", borvukhai_most_at_mark(count, size, words), 0);
}

static void wrong_numbers(void) {
    static const uint32_t counts[4] = {0, 257, 0x80000000u, 0xffffffffu};
    static const uint32_t sizes[10] = {0, 1, 15, 17, 31, 33, 64, 16384, 32768, 0xffffffffu};
    uint32_t at;
    for (at = 0; at < 4; at++) {
        none(counts[at], kib);
    }
    for (at = 0; at < 10; at++) {
        none(1, sizes[at]);
        none(256, sizes[at]);
    }
}

/* Every cycle at one size. */
static void at_size(uint32_t size) {
    kib = size, all = size == 32 ? 4096 : 2048, class_ = size == 32 ? 13 : 12;
    printf("%u KiB\n", (unsigned)kib);
    whole_case();
    all_reached();
    nothing();
    part_segment();
    made_in_handshake();
    made_in_mark();
    filled_in_handshake();
    any_words();
    each_state();
    wrong_numbers();
}

int main(void) {
    at_size(16);
    at_size(32);
    printf("%d checks, %d failed\n", checks, failures);
    return failures == 0 ? 0 : 1;
}
