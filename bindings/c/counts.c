/* The two counts of a segment, blocks kept at its last sweep and blocks handed out since, at both segment sizes,
 * against figures that were reckoned by hand from document 01 and requests No. 3, 5 and 6: after an opening, makes, a
 * fill, a detach, a start, and sweeps to part, to full and to free, of segments that were full and that were part; and
 * over memory whose counts are torn. A class has twice as many blocks at 32 KiB as at 16, so that one figure serves
 * both sizes where the class is the one `with` so many blocks. It prints a line for each part and size, and says on the
 * error output what was expected where something else came. */
#include "borvukhai.h"

#include <stdio.h>
#include <string.h>

#define FIRST 3u
#define LAST 14u
#define CLASSES (LAST - FIRST + 1)
#define MOST 6u /* segments */
#define MANY 0xffffffffu

static uint32_t segments, kib;
static uint32_t memory[BORVUKHAI_LENGTH(MOST, 32u)];
static uint32_t before[BORVUKHAI_LENGTH(MOST, 32u)];
static uint32_t output[BORVUKHAI_STATES_LENGTH(MOST, 32u)];
static uint32_t scratch[BORVUKHAI_SCRATCH_LENGTH(MOST, 32u)];
#define HEAP segments, kib, memory, BORVUKHAI_LENGTH(segments, kib)
#define STATES BORVUKHAI_STATES_LENGTH(segments, kib)

/* The blocks of a class by document 01's table and request No. 2's two classes; at 32 KiB each has twice as many. */
static uint32_t blocks(uint32_t class_) {
    static const uint32_t of[CLASSES] = {2048, 1024, 512, 256, 128, 64, 32, 16, 8, 4, 2, 1};
    return (kib == 32 ? 2 : 1) * of[class_ - FIRST];
}

/* The class that has so many blocks. */
static uint32_t with(uint32_t count) {
    uint32_t class_ = FIRST;
    while (blocks(class_) != count) {
        class_++;
    }
    return class_;
}

static int checks;
static int failures;

static void expect(const char *what, uint32_t which, uint64_t got, uint64_t wanted) {
    checks++;
    if (got != wanted) {
        fprintf(stderr, "%s, %lu: %llu, expected %llu\n", what, (unsigned long)which, (unsigned long long)got,
                (unsigned long long)wanted);
        failures++;
    }
}

static void ok(const char *what, uint32_t answer) { expect(what, 0, answer, BORVUKHAI_OK); }

/* A heap of so many segments with mutator 0 inside, in memory that was not 0. */
static void opened(uint32_t count) {
    segments = count;
    memset(memory, 0xa5, sizeof memory);
    ok("open", borvukhai_open(HEAP));
    ok("attach", borvukhai_attach(HEAP, 0));
}

/* The most fields of a record of a class, one of them a pointer. */
static uint32_t most_of(uint32_t class_) { return (1u << class_) / 4 - 1; }

static uint32_t make(uint32_t mutator, uint32_t to, uint32_t class_) {
    return borvukhai_make(HEAP, mutator, to, 1, most_of(class_) - 1);
}

/* So many makes of a class by mutator 0 into root 0. */
static void makes(uint32_t class_, uint32_t count) {
    while (count-- != 0) {
        ok("make", make(0, 0, class_));
    }
}

static int sound(void) { return borvukhai_is_sound(HEAP, scratch, BORVUKHAI_SCRATCH_LENGTH(segments, kib)); }

/* A look at all segments, over memory that passes the examination. */
static void look(void) {
    ok("states", borvukhai_states(HEAP, output, STATES));
    expect("sound", segments, (uint64_t)sound(), 1);
}

static uint32_t word(uint32_t s, uint32_t at) { return output[s * BORVUKHAI_STATE_WORDS + at]; }

/* The look says these six words of a segment. */
static void is(uint32_t s, uint32_t tag, uint32_t class_, uint32_t place, uint32_t mutator, uint32_t kept,
               uint32_t handed_out) {
    expect("tag of segment", s, word(s, BORVUKHAI_STATE_TAG), tag);
    expect("class of segment", s, word(s, BORVUKHAI_STATE_CLASS), class_);
    expect("place of segment", s, word(s, BORVUKHAI_STATE_PLACE), place);
    expect("mutator of segment", s, word(s, BORVUKHAI_STATE_MUTATOR), mutator);
    expect("kept of segment", s, word(s, BORVUKHAI_STATE_KEPT), kept);
    expect("handed out of segment", s, word(s, BORVUKHAI_STATE_HANDED_OUT), handed_out);
}

static void is_free(uint32_t s) { is(s, BORVUKHAI_SEGMENT_FREE, 0, 0, 0, 0, 0); }

/* One step, of this kind. */
static void step(uint32_t kind) {
    struct borvukhai_stepped did = {0, 0, 0, 0};
    ok("step", borvukhai_step_to(HEAP, &did));
    expect("kind of step", kind, did.kind, kind);
}

/* Both handshakes, mutator 0 inside. */
static void handshakes(void) {
    ok("check", borvukhai_check(HEAP, 0));
    step(BORVUKHAI_STEP_MOVED);
    ok("check", borvukhai_check(HEAP, 0));
    step(BORVUKHAI_STEP_MOVED);
}

/* The phase mark: so many records are marked. */
static void mark(uint32_t traced) {
    while (traced-- != 0) {
        step(BORVUKHAI_STEP_TRACED);
    }
    step(BORVUKHAI_STEP_MOVED);
}

/* A started cycle up to its sweep. */
static void to_sweep(uint32_t traced) {
    handshakes();
    mark(traced);
}

/* A step that sweeps this segment and frees so many of its blocks. */
static void swept(uint32_t segment, uint32_t freed) {
    struct borvukhai_stepped did = {0, 0, 0, 0};
    ok("step", borvukhai_step_to(HEAP, &did));
    expect("swept", segment, did.kind, BORVUKHAI_STEP_SWEPT);
    expect("segment swept", segment, did.segment, segment);
    expect("blocks freed of segment", segment, did.freed, freed);
}

/* A whole cycle over segment 0 alone. */
static void cycle(uint32_t traced, uint32_t freed) {
    ok("start", borvukhai_start(HEAP));
    to_sweep(traced);
    swept(0, freed);
    step(BORVUKHAI_STEP_DONE);
    look();
}

/* Every word of every record is 0. */
static void all_free(void) {
    uint32_t s;
    look();
    for (s = 0; s < segments; s++) {
        is_free(s);
    }
}

/* After an opening all are so, also where a heap with counts was there. */
static void opening(void) {
    opened(MOST);
    all_free();
    makes(with(4), 5);
    look();
    is(0, BORVUKHAI_SEGMENT_FULL, with(4), 4, 0, 0, 4);
    is(1, BORVUKHAI_SEGMENT_HELD, with(4), 1, 0, 0, 1);
    ok("open", borvukhai_open(HEAP));
    all_free();
}

/* Calls that hand out no block: what the records say stays. */
static void calls_between(void) {
    ok("store", borvukhai_store(HEAP, 0, 0, 0, 1));
    ok("load", borvukhai_load(HEAP, 0, 3, 0, 0));
    ok("put", borvukhai_put(HEAP, 0, 1, 0, 7));
    ok("copy", borvukhai_copy(HEAP, 0, 4, 3));
    ok("clear", borvukhai_clear(HEAP, 0, 0));
    ok("spawn", borvukhai_spawn(HEAP, 9, 0, 1));
    ok("leave", borvukhai_leave(HEAP, 9));
    ok("enter", borvukhai_enter(HEAP, 9));
    ok("check", borvukhai_check(HEAP, 9));
    ok("detach", borvukhai_detach(HEAP, 9));
    expect("too big", 9, borvukhai_make(HEAP, 0, 0, 0, 4096), BORVUKHAI_TOO_BIG);
    expect("no root", 6, borvukhai_make(HEAP, 0, 16, 0, 1), BORVUKHAI_BAD_ROOT);
}

/* Segments come off the free stack from 0 on, one for each mutator and class. No bit of theirs is 1: the n-th make gets
 * block n - 1 and leaves the place at n, so n blocks before it have a 0 bit, and none was kept. */
static void three_are(uint32_t tag) {
    is(0, tag, 3, 3, 0, 0, 3);
    is(1, tag, 4, 2, 0, 0, 2);
    is(2, tag, 12, 1, 0, 0, 1);
    is(3, BORVUKHAI_SEGMENT_HELD, 4, 1, 1, 0, 1);
    is_free(4);
}

static void three_classes(void) {
    opened(MOST);
    ok("attach", borvukhai_attach(HEAP, 1));
    makes(3, 3);
    ok("make", make(0, 1, 4));
    ok("make", make(0, 1, 4));
    ok("make", make(0, 2, 12));
    ok("make", make(1, 0, 4));
    look();
    three_are(BORVUKHAI_SEGMENT_HELD);
    calls_between();
    look();
    three_are(BORVUKHAI_SEGMENT_HELD);
    ok("detach", borvukhai_detach(HEAP, 0)); /* held segments go to part, places kept, and so are the counts */
    look();
    three_are(BORVUKHAI_SEGMENT_PART);
    ok("make", make(1, 1, 3)); /* mutator 1 takes segment 0, and of it block 3 */
    look();
    is(0, BORVUKHAI_SEGMENT_HELD, 3, 4, 1, 0, 4);
}

/* One make less than the blocks leaves the segment held, but where it has one block alone. The last make counts too,
 * though the segment becomes full in it. A start condemns it, and its counts stay. */
static void fill(void) {
    uint32_t c, of;
    for (c = FIRST; c <= LAST; c++) {
        of = blocks(c);
        opened(1);
        makes(c, of - 1);
        look();
        is(0, of == 1 ? BORVUKHAI_SEGMENT_FREE : BORVUKHAI_SEGMENT_HELD, of == 1 ? 0 : c, of - 1, 0, 0, of - 1);
        makes(c, 1);
        look();
        is(0, BORVUKHAI_SEGMENT_FULL, c, of, 0, 0, of);
        expect("no room", c, make(0, 0, c), BORVUKHAI_NO_ROOM);
        look();
        is(0, BORVUKHAI_SEGMENT_FULL, c, of, 0, 0, of);
        ok("start", borvukhai_start(HEAP));
        look();
        is(0, BORVUKHAI_SEGMENT_CONDEMNED, c, of, 0, 0, of);
    }
}

/* A segment of 16 blocks; root r gets the record in block r. What is cleared here leaves five roots, so the sweep keeps
 * the blocks 3, 4, 5, 9 and 15, and 16 - 5 become free. The makes after it begin at place 0:
 *
 *   make              1  2  3  4  5  6  7  8  9  10  11
 *   block             0  1  2  6  7  8 10 11 12  13  14    past 3, 4 and 5, and past 9
 *   place after it    1  2  3  7  8  9 11 12 13  14  16    block 15 is kept: none remains, the segment is full
 *   0 bits before it  1  2  3  4  5  6  7  8  9  10  11 */
static const uint32_t cleared[11] = {0, 1, 2, 6, 7, 8, 10, 11, 12, 13, 14};
static const uint32_t places[11] = {1, 2, 3, 7, 8, 9, 11, 12, 13, 14, 16};

static void sweep_to_part(void) {
    uint32_t i;
    opened(2);
    for (i = 0; i < 16; i++) {
        ok("make", make(0, i, with(16)));
    }
    for (i = 0; i < 11; i++) {
        ok("clear", borvukhai_clear(HEAP, 0, cleared[i]));
    }
    cycle(5, 11);
    is(0, BORVUKHAI_SEGMENT_PART, with(16), 0, 0, 5, 0);
    for (i = 0; i < 11; i++) {
        ok("make", make(0, cleared[i], with(16)));
        look();
        is(0, i < 10 ? BORVUKHAI_SEGMENT_HELD : BORVUKHAI_SEGMENT_FULL, with(16), places[i], 0, 5, i + 1);
    }
    is_free(1);
}

/* The same segment: all 16 records are alive, and the sweep keeps them all. Without root 0 the next keeps 15 and frees
 * 1; then one make gets block 0, no other is free, and the segment is full with 15 and 1. */
static void sweep_to_full(void) {
    sweep_to_part();
    cycle(16, 0);
    is(0, BORVUKHAI_SEGMENT_FULL, with(16), 16, 0, 16, 0);
    ok("clear", borvukhai_clear(HEAP, 0, 0));
    cycle(15, 1);
    is(0, BORVUKHAI_SEGMENT_PART, with(16), 0, 0, 15, 0);
    ok("make", make(0, 0, with(16)));
    look();
    is(0, BORVUKHAI_SEGMENT_FULL, with(16), 16, 0, 15, 1);
    is_free(1);
}

/* No record is alive: the 15 + 1 blocks become free, and both counts are 0. Segment 0 was put on the free stack last,
 * so the next make takes it, now of a class that has 512 blocks: two makes, blocks 0 and 1. */
static void sweep_to_free(void) {
    uint32_t root;
    sweep_to_full();
    for (root = 0; root < 16; root++) {
        ok("clear", borvukhai_clear(HEAP, 0, root));
    }
    cycle(0, 16);
    is_free(0);
    makes(with(512), 2);
    look();
    is(0, BORVUKHAI_SEGMENT_HELD, with(512), 2, 0, 0, 2);
    is_free(1);
}

/* A list of records of class 3, each with a pointer to the one made before it, fills a segment. Root 1 has one of them,
 * so the blocks up to its own are reached. The sweep keeps these, and the others become free. The next make finds its
 * block behind as many bits that are 1, and one 0 bit lies before its place. As many makes as blocks became free fill
 * the segment: the last but one gets the last block but one.
 *
 *            blocks  reached                             free
 *   16 KiB    2,048      777  24 whole words and 9 bits  1,271
 *   32 KiB    4,096    2,777  86 whole words and 25      1,319 */
static void three_levels(void) {
    uint32_t made, all = kib == 32 ? 4096 : 2048, reached = kib == 32 ? 2777 : 777, freed = kib == 32 ? 1319 : 1271;
    opened(1);
    for (made = 1; made <= all; made++) {
        makes(3, 1);
        ok("store", borvukhai_store(HEAP, 0, 0, 0, 2));
        ok("copy", borvukhai_copy(HEAP, 0, 2, 0));
        ok("copy", made == reached ? borvukhai_copy(HEAP, 0, 1, 0) : (uint32_t)BORVUKHAI_OK);
    }
    ok("clear", borvukhai_clear(HEAP, 0, 0));
    ok("clear", borvukhai_clear(HEAP, 0, 2));
    cycle(reached, freed);
    is(0, BORVUKHAI_SEGMENT_PART, 3, 0, 0, reached, 0);
    makes(3, 1);
    look();
    is(0, BORVUKHAI_SEGMENT_HELD, 3, reached + 1, 0, reached, 1);
    makes(3, freed - 2);
    look();
    is(0, BORVUKHAI_SEGMENT_HELD, 3, all - 1, 0, reached, freed - 1);
    makes(3, 1);
    look();
    is(0, BORVUKHAI_SEGMENT_FULL, 3, all, 0, reached, freed);
}

/* Four segments are filled: 0, 1 and 3, of 4 blocks, by mutator 0 with roots 0 to 11; 2, of 8 blocks, by mutator 1 with
 * roots 0 to 7. Then these roots alone are left, so that the sweeps keep
 *   block 2 of segment 0, blocks 1 and 3 of segment 1, blocks 0 and 4 of segment 2, and blocks 0, 1 and 3 of segment 3,
 * and free 4 - 1, 4 - 2, 8 - 2 and 4 - 3. All four are part then, segment 3 on top of its class's stack. */
static void four_parts(void) {
    static const uint32_t gone[2][6] = {{0, 1, 3, 4, 6, 10}, {1, 2, 3, 5, 6, 7}};
    uint32_t i;
    opened(MOST);
    ok("attach", borvukhai_attach(HEAP, 1));
    for (i = 0; i < 20; i++) {
        ok("make", i < 8 ? make(0, i, with(4)) : i < 16 ? make(1, i - 8, with(8)) : make(0, i - 8, with(4)));
    }
    for (i = 0; i < 12; i++) {
        ok("clear", borvukhai_clear(HEAP, i / 6, gone[i / 6][i % 6]));
    }
    ok("leave", borvukhai_leave(HEAP, 1));
    ok("start", borvukhai_start(HEAP));
    to_sweep(8);
    swept(0, 3);
    swept(1, 2);
    swept(2, 6);
    swept(3, 1);
    step(BORVUKHAI_STEP_DONE);
    look();
    is(0, BORVUKHAI_SEGMENT_PART, with(4), 0, 0, 1, 0);
    is(1, BORVUKHAI_SEGMENT_PART, with(4), 0, 0, 2, 0);
    is(2, BORVUKHAI_SEGMENT_PART, with(8), 0, 0, 2, 0);
    is(3, BORVUKHAI_SEGMENT_PART, with(4), 0, 0, 3, 0);
    is_free(4);
    is_free(5);
}

/* All four with blocks kept and blocks handed out, none condemned.
 *   3  one make by mutator 0 gets block 2, between 1 and 3: full with 3 and 1.
 *   1  one more gets block 0; block 2 remains: held with 2 and 1, the place 1.
 *   2  mutator 1 makes two, blocks 1 and 2 past block 0, and is detached: part with 2 and 2, the place 3.
 *   0  mutator 2 makes one, block 0; blocks 1 and 3 remain: held with 1 and 1, the place 1. It goes outside. */
static void in_idle(void) {
    four_parts();
    ok("make", make(0, 10, with(4)));
    ok("make", make(0, 4, with(4)));
    ok("enter", borvukhai_enter(HEAP, 1));
    ok("make", make(1, 1, with(8)));
    ok("make", make(1, 2, with(8)));
    ok("detach", borvukhai_detach(HEAP, 1));
    ok("attach", borvukhai_attach(HEAP, 2));
    ok("make", make(2, 0, with(4)));
    ok("leave", borvukhai_leave(HEAP, 2));
    ok("clear", borvukhai_clear(HEAP, 0, 9));
    look();
    is(0, BORVUKHAI_SEGMENT_HELD, with(4), 1, 2, 1, 1);
    is(1, BORVUKHAI_SEGMENT_HELD, with(4), 1, 0, 2, 1);
    is(2, BORVUKHAI_SEGMENT_PART, with(8), 3, 0, 2, 2);
    is(3, BORVUKHAI_SEGMENT_FULL, with(4), 4, 0, 3, 1);
    is_free(4);
    is_free(5);
}

/* Segments 1 to 5 of the cycle below. */
static void beside(void) {
    is(1, BORVUKHAI_SEGMENT_FULL, with(4), 4, 0, 2, 2);
    is(2, BORVUKHAI_SEGMENT_CONDEMNED, with(8), 3, 0, 2, 2);
    is(3, BORVUKHAI_SEGMENT_CONDEMNED, with(4), 4, 0, 3, 1);
    is(4, BORVUKHAI_SEGMENT_HELD, with(512), 1, 0, 0, 1);
    is_free(5);
}

/* A start condemns the full segment 3 and the part segment 2, each with its place and counts. Mutator 0 then makes one
 * with 4 blocks, block 2 of segment 1, which is full with 2 and 2 and not condemned; and one with 512 in segment 4. */
static void in_sync1(void) {
    in_idle();
    ok("start", borvukhai_start(HEAP));
    ok("make", make(0, 6, with(4)));
    ok("make", make(0, 0, with(512)));
    look();
    is(0, BORVUKHAI_SEGMENT_HELD, with(4), 1, 2, 1, 1);
    beside();
}

/* All five states, in mark: mutator 2 is detached, and segment 0, which it held, is part with its place and counts. */
static void five_states(void) {
    in_sync1();
    handshakes();
    ok("enter", borvukhai_enter(HEAP, 2));
    ok("detach", borvukhai_detach(HEAP, 2));
    look();
    is(0, BORVUKHAI_SEGMENT_PART, with(4), 1, 0, 1, 1);
    beside();
}

/* The rest of that cycle: roots 0, 2, 4 to 8, 10 and 11 of mutator 0 have records, and root 0 of mutator 2 had one: ten
 * are marked. Segment 2 had mutator 1's alone: its 2 + 2 blocks become free. Of segment 3 root 9 had block 1: blocks 0,
 * 2 and 3 are kept, and 3 + 1 - 3 becomes free. No other segment's counts change, and segment 0 is not swept. */
static void five_then(void) {
    five_states();
    mark(10);
    swept(2, 4);
    swept(3, 1);
    step(BORVUKHAI_STEP_DONE);
    look();
    is(0, BORVUKHAI_SEGMENT_PART, with(4), 1, 0, 1, 1);
    is(1, BORVUKHAI_SEGMENT_FULL, with(4), 4, 0, 2, 2);
    is_free(2);
    is(3, BORVUKHAI_SEGMENT_PART, with(4), 0, 0, 3, 0);
    is(4, BORVUKHAI_SEGMENT_HELD, with(512), 1, 0, 0, 1);
    is_free(5);
}

/* The cycle after it, with no record alive: segments 0, 1 and 3 are swept, and their 1 + 1, 2 + 2 and 3 + 0 blocks
 * become free, of the two part ones no more than that. Segment 4 stays held. */
static void parts_to_free(void) {
    uint32_t root;
    five_then();
    for (root = 0; root < 16; root++) {
        ok("clear", borvukhai_clear(HEAP, 0, root));
    }
    ok("start", borvukhai_start(HEAP));
    look();
    is(0, BORVUKHAI_SEGMENT_CONDEMNED, with(4), 1, 0, 1, 1);
    is(3, BORVUKHAI_SEGMENT_CONDEMNED, with(4), 0, 0, 3, 0);
    to_sweep(0);
    swept(0, 2);
    swept(1, 4);
    swept(3, 3);
    step(BORVUKHAI_STEP_DONE);
    look();
    is_free(0);
    is_free(1);
    is_free(3);
    is(4, BORVUKHAI_SEGMENT_HELD, with(512), 1, 0, 0, 1);
}

/* The word `at` of a segment's record in the memory, where docs/LAYOUT.md puts it. */
static uint32_t *stored(uint32_t s, uint32_t at) {
    return memory + 1040 + 256 * kib * segments + s * BORVUKHAI_STATE_WORDS + at;
}

static void keep(void) { memcpy(before, memory, sizeof memory); }
static void restore(void) { memcpy(memory, before, sizeof memory); }

/* Every kind of call but makes and steps, by mutator 0 or onto number 1. */
enum { CALLS = 17 };
static uint64_t any_call(int call) {
    switch (call) {
    case 0:
        return borvukhai_open(HEAP);
    case 1:
        return borvukhai_attach(HEAP, 1);
    case 2:
        return borvukhai_spawn(HEAP, 1, 0, 0);
    case 3:
        return borvukhai_detach(HEAP, 0);
    case 4:
        return borvukhai_load(HEAP, 0, 1, 0, 0);
    case 5:
        return borvukhai_store(HEAP, 0, 0, 0, 1);
    case 6:
        return borvukhai_put(HEAP, 0, 0, 0, 1);
    case 7:
        return borvukhai_get(HEAP, 0, 0, 0);
    case 8:
        return borvukhai_shape(HEAP, 0, 0);
    case 9:
        return borvukhai_clear(HEAP, 0, 0);
    case 10:
        return borvukhai_check(HEAP, 0);
    case 11:
        return borvukhai_leave(HEAP, 0);
    case 12:
        return borvukhai_start(HEAP);
    case 13:
        return borvukhai_enter(HEAP, 0);
    case 14:
        return borvukhai_copy(HEAP, 0, 1, 0);
    case 15:
        return borvukhai_same(HEAP, 0, 0, 1);
    default:
        return borvukhai_phase(HEAP);
    }
}

/* An answer is a result, or a refusal of the list and nothing above it; never SIZE, as the lengths are right. */
static void listed(uint32_t who, uint64_t answer) {
    uint32_t number = borvukhai_refusal(answer);
    expect("call over torn counts", who, borvukhai_refusal_name(number)[0] != 0 && number != BORVUKHAI_SIZE, 1);
    expect("result over torn counts", who, number == BORVUKHAI_OK || borvukhai_result(answer) == 0, 1);
}

/* Each kind of call over the memory as it is, and steps and checks one after the other. The memory ends as it was. */
static void calls_over(void) {
    uint32_t c;
    int call;
    keep();
    for (call = 0; call < CALLS; call++) {
        listed((uint32_t)call, any_call(call));
        restore();
    }
    for (c = FIRST; c <= LAST; c++) {
        listed(c, make(0, 0, c));
        restore();
    }
    for (call = 0; call < 24; call++) {
        listed(CALLS, borvukhai_step(HEAP));
        listed(CALLS, borvukhai_check(HEAP, 0));
    }
    restore();
}

/* One count of a segment is this number: the look tells the words as they are, and the examination says yes exactly
 * where the number is the right one. */
static void torn_count(uint32_t s, uint32_t at, uint32_t number) {
    uint32_t right = *stored(s, at);
    *stored(s, at) = number;
    memset(output, 0x5a, sizeof output);
    ok("states", borvukhai_states(HEAP, output, STATES));
    expect("the look tells the words", s, memcmp(output, stored(0, 0), STATES * sizeof output[0]) == 0, 1);
    expect("the count in the look", s, word(s, at), number);
    expect("sound with this count", number, (uint64_t)sound(), number == right);
    calls_over();
    *stored(s, at) = right;
}

/* Both counts of every segment, with numbers that are right for some of them. */
static void torn_counts(void) {
    uint32_t s, i;
    for (s = 0; s < segments; s++) {
        uint32_t class_ = *stored(s, BORVUKHAI_STATE_CLASS), of = class_ == 0 ? 4 : blocks(class_);
        uint32_t numbers[8] = {0, 1, 2, 3, 0, 0, 0x80000000u, MANY};
        numbers[4] = of, numbers[5] = of + 1;
        for (i = 0; i < 8; i++) {
            torn_count(s, BORVUKHAI_STATE_KEPT, numbers[i]);
            torn_count(s, BORVUKHAI_STATE_HANDED_OUT, numbers[i]);
        }
    }
    expect("sound again", segments, (uint64_t)sound(), 1);
}

/* A number moved from one count to the other: the sum is right, and the counts are not. */
static void moved_between(uint32_t s) {
    *stored(s, BORVUKHAI_STATE_KEPT) += 1;
    *stored(s, BORVUKHAI_STATE_HANDED_OUT) -= 1;
    expect("sound with the sum alone", s, (uint64_t)sound(), 0);
    *stored(s, BORVUKHAI_STATE_KEPT) -= 1;
    *stored(s, BORVUKHAI_STATE_HANDED_OUT) += 1;
}

/* A segment in each state, in each phase of a cycle; and one whose blocks were all handed out, and then all kept. */
static void torn(void) {
    uint32_t s, now;
    in_idle();
    torn_counts();
    in_sync1();
    for (s = 0; s < 5; s++) {
        moved_between(s);
    }
    for (now = BORVUKHAI_SYNC1; now <= BORVUKHAI_SYNC2; now++) {
        torn_counts();
        ok("check", borvukhai_check(HEAP, 0));
        step(BORVUKHAI_STEP_MOVED);
    }
    five_states();
    moved_between(0);
    torn_counts();
    step(BORVUKHAI_STEP_TRACED);
    torn_counts();
    mark(9);
    torn_counts();
    five_then();
    torn_counts();
    opened(1);
    for (s = 0; s < 4; s++) {
        ok("make", make(0, s, with(4)));
    }
    torn_counts();
    cycle(4, 0);
    torn_counts();
}

/* A make whose segment counts 4,294,967,295 blocks handed out is refused 13. In the heap with all five states a make
 * with 4 blocks takes its block from segment 0, which is part, one with 8 from 5, which is free, and one with 512 from
 * 4, which is held. It asks for no other segment's count, and for none of blocks kept. One less than that number
 * is counted on. */
static void torn_makes(void) {
    const uint32_t takes[3][2] = {{with(4), 0}, {with(8), 5}, {with(512), 4}};
    uint32_t s, i;
    five_states();
    keep();
    for (s = 0; s < MOST; s++) {
        for (i = 0; i < 3; i++) {
            *stored(s, BORVUKHAI_STATE_HANDED_OUT) = MANY;
            expect("make beside 4294967295", s, make(0, 0, takes[i][0]),
                   takes[i][1] == s ? BORVUKHAI_TORN : BORVUKHAI_OK);
            restore();
            *stored(s, BORVUKHAI_STATE_KEPT) = MANY;
            ok("make over a torn kept count", make(0, 0, takes[i][0]));
            expect("the kept count stays", s, *stored(s, BORVUKHAI_STATE_KEPT), MANY);
            restore();
        }
    }
    for (i = 0; i < 3; i++) {
        s = takes[i][1];
        *stored(s, BORVUKHAI_STATE_HANDED_OUT) = MANY - 1;
        ok("make over 4294967294", make(0, 0, takes[i][0]));
        expect("counted", s, *stored(s, BORVUKHAI_STATE_HANDED_OUT), MANY);
        expect("make over 4294967295", s, make(0, 0, takes[i][0]), BORVUKHAI_TORN);
        restore();
    }
}

/* The same at every place of the first two words of a bitmap, of every class that has two blocks or more: a make finds
 * its block in the place's own word, or by the search. */
static void torn_places(void) {
    uint32_t c, made;
    for (c = FIRST; c <= LAST; c++) {
        opened(1);
        for (made = 1; made < blocks(c) && made <= 64; made++) {
            makes(c, 1);
            keep();
            *stored(0, BORVUKHAI_STATE_HANDED_OUT) = MANY;
            expect("make over 4294967295", c, make(0, 0, c), BORVUKHAI_TORN);
            restore();
            expect("handed out", c, *stored(0, BORVUKHAI_STATE_HANDED_OUT), made);
        }
    }
}

/* A step over a condemned segment with these counts: 13 where they are more than its blocks together, no sum wrapping;
 * else it is swept, and its counts are right again, so many blocks being marked. */
static void torn_sweep(uint32_t s, uint32_t of, uint32_t kept, uint32_t handed_out, uint32_t marked) {
    int over = (uint64_t)kept + handed_out > of;
    uint64_t answer;
    *stored(s, BORVUKHAI_STATE_KEPT) = kept;
    *stored(s, BORVUKHAI_STATE_HANDED_OUT) = handed_out;
    answer = borvukhai_step(HEAP);
    expect("sweep over torn counts", kept, borvukhai_refusal(answer), over ? BORVUKHAI_TORN : BORVUKHAI_OK);
    if (!over) {
        expect("swept over torn counts", kept, borvukhai_step_kind(answer), BORVUKHAI_STEP_SWEPT);
        expect("kept of segment", s, *stored(s, BORVUKHAI_STATE_KEPT), marked);
        expect("handed out of segment", s, *stored(s, BORVUKHAI_STATE_HANDED_OUT), 0);
        expect("sound after the sweep", kept, (uint64_t)sound(), 1);
    }
    restore();
}

/* Every pair of these numbers; the sums of some are 4,294,967,296 and a little more. */
static void torn_sweeps_of(uint32_t s, uint32_t of, uint32_t marked) {
    uint32_t i, j, numbers[8] = {0, 1, 0, 0, 0, 0x80000000u, 0, MANY};
    numbers[2] = of - 1, numbers[3] = of, numbers[4] = of + 1, numbers[6] = MANY - of;
    keep();
    for (i = 0; i < 8; i++) {
        for (j = 0; j < 8; j++) {
            torn_sweep(s, of, numbers[i], numbers[j], marked);
        }
    }
}

/* Segments 2 and 3 of the heap with all five states, of which 2 was part; and a full segment of each class, with no
 * record marked, or one. */
static void torn_sweeps(void) {
    uint32_t c, alive;
    five_states();
    mark(10);
    torn_sweeps_of(2, 8, 0);
    swept(2, 4);
    torn_sweeps_of(3, 4, 3);
    for (c = FIRST; c <= LAST; c++) {
        for (alive = 0; alive <= 1; alive++) {
            opened(1);
            makes(c, blocks(c));
            ok("clear", borvukhai_clear(HEAP, 0, alive));
            ok("start", borvukhai_start(HEAP));
            to_sweep(alive);
            torn_sweeps_of(0, blocks(c), alive);
        }
    }
}

/* A detach, a start, and the taking of a part or a free segment leave torn counts as they are; a make adds its one. */
static void torn_and_kept(void) {
    uint32_t s;
    five_then();
    for (s = 0; s < MOST; s++) {
        *stored(s, BORVUKHAI_STATE_KEPT) = 70 + s;
        *stored(s, BORVUKHAI_STATE_HANDED_OUT) = 80 + s;
    }
    ok("make", make(0, 0, with(4))); /* from segment 3, the last swept to part: block 1, its last */
    ok("make", make(0, 0, with(8))); /* from segment 2, the last swept to free */
    ok("start", borvukhai_start(HEAP));
    ok("states", borvukhai_states(HEAP, output, STATES));
    is(0, BORVUKHAI_SEGMENT_CONDEMNED, with(4), 1, 0, 70, 80);
    is(1, BORVUKHAI_SEGMENT_CONDEMNED, with(4), 4, 0, 71, 81);
    is(2, BORVUKHAI_SEGMENT_HELD, with(8), 1, 0, 72, 83);
    is(3, BORVUKHAI_SEGMENT_CONDEMNED, with(4), 4, 0, 73, 84);
    is(4, BORVUKHAI_SEGMENT_HELD, with(512), 1, 0, 74, 84);
    is(5, BORVUKHAI_SEGMENT_FREE, 0, 0, 0, 75, 85);
    handshakes();
    ok("detach", borvukhai_detach(HEAP, 0)); /* in mark it may */
    ok("states", borvukhai_states(HEAP, output, STATES));
    is(2, BORVUKHAI_SEGMENT_PART, with(8), 1, 0, 72, 83);
    is(4, BORVUKHAI_SEGMENT_PART, with(512), 1, 0, 74, 84);
}

int main(void) {
    static const struct {
        const char *name;
        void (*run)(void);
    } parts[] = {{"an opening", opening},
                 {"makes in three classes", three_classes},
                 {"a fill of each class, and a start", fill},
                 {"a sweep to part, and makes past kept blocks", sweep_to_part},
                 {"a sweep to full", sweep_to_full},
                 {"a sweep to free, and another class", sweep_to_free},
                 {"a bitmap of three levels", three_levels},
                 {"all five states", five_then},
                 {"part segments, swept to free", parts_to_free},
                 {"torn counts: looks, examination, every call", torn},
                 {"torn counts: makes", torn_makes},
                 {"torn counts: makes at every place", torn_places},
                 {"torn counts: sweeps", torn_sweeps},
                 {"torn counts: what changes none", torn_and_kept}};
    size_t i;
    for (kib = 16; kib <= 32; kib += 16) {
        for (i = 0; i < sizeof parts / sizeof parts[0]; i++) {
            int failed = failures;
            int tried = checks;
            parts[i].run();
            printf("%u KiB, %s: %d checks, %d failed\n", (unsigned)kib, parts[i].name, checks - tried,
                   failures - failed);
        }
    }
    printf("%d checks, %d failed\n", checks, failures);
    return failures == 0 ? 0 : 1;
}
