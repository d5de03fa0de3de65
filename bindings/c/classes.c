/* Records of every class at both segment sizes, the longest and the smallest above all: a detach that hands back eleven
 * segments, or twelve; the first and last field of records of 4,095 fields and a cycle over them; the first and last
 * block of class 3; and where refusals 9 and 10 begin. It prints a line for each part and size, and says on the error
 * output what was expected where something else came. */
#include "borvukhai.h"

#include <stdio.h>
#include <string.h>

#define FIRST 3u
#define LAST 14u
#define CLASSES (LAST - FIRST + 1)
#define MOST 4095u /* the fields of a record */
#define MOST_SEGMENTS 256u
#define MANY 0xffffffffu

static uint32_t segments, kib;
static uint32_t memory[BORVUKHAI_LENGTH(MOST_SEGMENTS, 32u)];
static uint32_t before[BORVUKHAI_LENGTH(MOST_SEGMENTS, 32u)];
static uint32_t output[BORVUKHAI_STATES_LENGTH(MOST_SEGMENTS, 32u)];
static uint32_t scratch[BORVUKHAI_SCRATCH_LENGTH(MOST_SEGMENTS, 32u)];
#define HEAP segments, kib, memory, BORVUKHAI_LENGTH(segments, kib)

static int checks;
static int failures;

static void expect(const char *what, uint32_t which, uint64_t got, uint64_t wanted) {
    checks++;
    if (got != wanted) {
        fprintf(stderr, "%s, %lu: %llu, expected %llu\n", what, (unsigned long)which, (unsigned long long)got,
                (unsigned long long)wanted);
        failures++;
    }
}

static void ok(const char *what, uint32_t answer) { expect(what, 0, answer, BORVUKHAI_OK); }

/* A heap of so many segments with mutator 0 inside. */
static void opened(uint32_t count) {
    segments = count;
    ok("open", borvukhai_open(HEAP));
    ok("attach", borvukhai_attach(HEAP, 0));
}

/* A make of so many pointers and values by mutator 0 is refused so, and no word has changed. */
static void refused(uint32_t to, uint32_t pointers, uint32_t values, uint32_t wanted) {
    size_t bytes = BORVUKHAI_LENGTH(segments, kib) * sizeof memory[0];
    memcpy(before, memory, bytes);
    expect("a make refused", pointers, borvukhai_make(HEAP, 0, to, pointers, values), wanted);
    expect("a make refused keeps the memory", pointers, memcmp(before, memory, bytes) == 0, 1);
}

/* A look at all segments, over memory that passes the examination. */
static void look(void) {
    ok("states", borvukhai_states(HEAP, output, BORVUKHAI_STATES_LENGTH(segments, kib)));
    expect("sound", segments, (uint64_t)borvukhai_is_sound(HEAP, scratch, BORVUKHAI_SCRATCH_LENGTH(segments, kib)), 1);
}

/* A word of a segment in the look. */
static uint32_t word(uint32_t s, uint32_t at) { return output[s * BORVUKHAI_STATE_WORDS + at]; }

/* The look says this state of a segment. */
static void state(uint32_t s, uint32_t tag, uint32_t class_, uint32_t place, uint32_t mutator) {
    expect("tag of segment", s, word(s, BORVUKHAI_STATE_TAG), tag);
    expect("class of segment", s, word(s, BORVUKHAI_STATE_CLASS), class_);
    expect("place of segment", s, word(s, BORVUKHAI_STATE_PLACE), place);
    expect("mutator of segment", s, word(s, BORVUKHAI_STATE_MUTATOR), mutator);
}

/* The look says these counts of a segment: blocks kept at its last sweep, and handed out since. */
static void counts(uint32_t s, uint32_t kept, uint32_t handed_out) {
    expect("kept of segment", s, word(s, BORVUKHAI_STATE_KEPT), kept);
    expect("handed out of segment", s, word(s, BORVUKHAI_STATE_HANDED_OUT), handed_out);
}

/* A cycle with mutator 0 outside: so many records are marked, and each segment that is swept frees so many blocks, from
 * segment 0 on. */
static void cycle(uint32_t traced, uint32_t swept, const uint32_t *freed) {
    struct borvukhai_stepped did = {0, 0, 0, 0};
    uint32_t marked = 0, segment = 0;
    ok("start", borvukhai_start(HEAP));
    ok("leave", borvukhai_leave(HEAP, 0));
    while (borvukhai_step_to(HEAP, &did) == BORVUKHAI_OK && did.kind != BORVUKHAI_STEP_DONE) {
        marked += did.kind == BORVUKHAI_STEP_TRACED;
        if (did.kind == BORVUKHAI_STEP_SWEPT && segment < swept) {
            expect("swept", segment, did.segment, segment);
            expect("freed", segment, did.freed, freed[segment]);
        }
        segment += did.kind == BORVUKHAI_STEP_SWEPT;
    }
    expect("done", 0, did.kind, BORVUKHAI_STEP_DONE);
    expect("traced", 0, marked, traced);
    expect("segments swept", 0, segment, swept);
    ok("enter", borvukhai_enter(HEAP, 0));
}

/* The most fields of a record of a class. */
static uint32_t most_of(uint32_t class_) { return (1u << class_) / 4 - 1; }

/* The blocks of a class by document 01's table and request No. 2's two classes; at 32 KiB each has twice as many. */
static uint32_t blocks_of(uint32_t class_) {
    static const uint32_t blocks[CLASSES] = {2048, 1024, 512, 256, 128, 64, 32, 16, 8, 4, 2, 1};
    return (kib == 32 ? 2 : 1) * blocks[class_ - FIRST];
}

/* The look says of a segment that was never swept: so many of its blocks are handed out. It is full where these are all
 * of them, else in this state. */
static void handed_out(uint32_t s, uint32_t class_, uint32_t count, uint32_t tag, uint32_t mutator) {
    int full = count == blocks_of(class_);
    state(s, full ? (uint32_t)BORVUKHAI_SEGMENT_FULL : tag, class_, count, full ? 0 : mutator);
    counts(s, 0, count);
}

/* The look says of a segment that a sweep kept so many of its blocks: free where it kept none, full where all. */
static void kept_of(uint32_t s, uint32_t class_, uint32_t kept) {
    int full = kept == blocks_of(class_);
    state(s, full ? BORVUKHAI_SEGMENT_FULL : kept == 0 ? BORVUKHAI_SEGMENT_FREE : BORVUKHAI_SEGMENT_PART,
          kept == 0 ? 0 : class_, full ? kept : 0, 0);
    counts(s, kept, 0);
}

/* Dead records fill a segment of a class, so many of whose blocks are handed out. */
static void fill(uint32_t class_, uint32_t count) {
    for (; count < blocks_of(class_); count++) {
        ok("make", borvukhai_make(HEAP, 0, 15, 0, most_of(class_)));
    }
    ok("clear", borvukhai_clear(HEAP, 0, 15));
}

/* Twelve segments, one of each class. At 16 KiB mutator 0 holds eleven and has a full one of class 14, which has one
 * block; at 32 it holds all twelve. Its detach makes them part, each with its class and place, and mutator 1 finds each
 * of them by its class. */
static void hands_back(void) {
    static const uint32_t places[CLASSES] = {1, 2, 3, 1, 2, 3, 1, 2, 3, 1, 1, 1};
    uint32_t c, made, parts = 0;
    opened(CLASSES);
    for (c = FIRST; c <= LAST; c++) {
        for (made = 0; made < places[c - FIRST]; made++) {
            ok("make", borvukhai_make(HEAP, 0, c, most_of(c) / 2, most_of(c) - most_of(c) / 2));
        }
    }
    look();
    for (c = FIRST; c <= LAST; c++) {
        handed_out(c - FIRST, c, places[c - FIRST], BORVUKHAI_SEGMENT_HELD, 0);
    }
    ok("detach", borvukhai_detach(HEAP, 0));
    look();
    for (c = FIRST; c <= LAST; c++) {
        handed_out(c - FIRST, c, places[c - FIRST], BORVUKHAI_SEGMENT_PART, 0);
        parts += word(c - FIRST, BORVUKHAI_STATE_TAG) == BORVUKHAI_SEGMENT_PART;
    }
    expect("part segments", kib, parts, kib == 32 ? 12 : 11);
    ok("attach", borvukhai_attach(HEAP, 1));
    for (c = FIRST; c <= LAST; c++) {
        expect("make again, class", c, borvukhai_make(HEAP, 1, c, 0, most_of(c)),
               places[c - FIRST] < blocks_of(c) ? BORVUKHAI_OK : BORVUKHAI_NO_ROOM);
    }
    look();
    for (c = FIRST; c <= LAST; c++) {
        made = places[c - FIRST] + (places[c - FIRST] < blocks_of(c));
        handed_out(c - FIRST, c, made, BORVUKHAI_SEGMENT_HELD, 1);
    }
}

/* One segment of each class in turn: it is held from its first make on and full with its last, which at 16 KiB is the
 * first of class 14; then there is no room. */
static void blocks(void) {
    uint32_t c, made;
    for (c = FIRST; c <= LAST; c++) {
        expect("blocks of class", c, BORVUKHAI_BLOCKS(kib, c), blocks_of(c));
        opened(1);
        for (made = 1; made <= blocks_of(c); made++) {
            ok("make", borvukhai_make(HEAP, 0, made % 16, 0, most_of(c)));
            if (made <= 2 || made + 2 > blocks_of(c)) {
                look();
                handed_out(0, c, made, BORVUKHAI_SEGMENT_HELD, 0);
            }
        }
        refused(0, 0, most_of(c), BORVUKHAI_NO_ROOM);
    }
}

/* The last block of class 3, 2,047 at 16 KiB and 4,095 at 32. The record in it is behind the pointer of another one, so
 * that it is traced; all before it are dead, and swept. The makes after it use every block but the last again. */
static void last_of_smallest(void) {
    uint32_t made, found = 0, all = blocks_of(FIRST), freed[2];
    opened(2);
    ok("make", borvukhai_make(HEAP, 0, 2, 1, 1));
    for (made = 1; made <= all; made++) {
        ok("make", borvukhai_make(HEAP, 0, 0, 0, 1));
        ok("put", borvukhai_put(HEAP, 0, 0, 0, made));
    }
    ok("store", borvukhai_store(HEAP, 0, 2, 0, 0));
    ok("clear", borvukhai_clear(HEAP, 0, 0));
    look();
    handed_out(0, FIRST + 1, 1, BORVUKHAI_SEGMENT_HELD, 0);
    handed_out(1, FIRST, all, BORVUKHAI_SEGMENT_HELD, 0);
    fill(FIRST + 1, 1);
    freed[0] = blocks_of(FIRST + 1) - 1, freed[1] = all - 1;
    cycle(2, 2, freed);
    look();
    kept_of(1, FIRST, 1);
    for (made = 1; made < all; made++) {
        ok("make", borvukhai_make(HEAP, 0, 0, 0, 1));
        ok("put", borvukhai_put(HEAP, 0, 0, 0, 0));
    }
    refused(0, 0, 1, BORVUKHAI_NO_ROOM);
    ok("load", borvukhai_load(HEAP, 0, 1, 2, 0));
    ok("get", borvukhai_get_to(HEAP, 0, 1, 0, &found));
    expect("the value in the last block", all, found, all);
    look();
    state(1, BORVUKHAI_SEGMENT_FULL, FIRST, all, 0);
    counts(1, 1, all - 1);
}

/* A list that fills so many segments of class 3, each record with a pointer to the one before it: every block is a
 * record of its own, all of them are traced and kept, and then freed. */
static void list_of_smallest(uint32_t count) {
    uint32_t made, s, refusals = 0, all = count * blocks_of(FIRST), freed[MOST_SEGMENTS] = {0};
    opened(count);
    for (made = 0; made < all; made++) {
        refusals += borvukhai_make(HEAP, 0, 1, 1, 0) != BORVUKHAI_OK;
        refusals += borvukhai_store(HEAP, 0, 1, 0, 0) != BORVUKHAI_OK;
        refusals += borvukhai_copy(HEAP, 0, 0, 1) != BORVUKHAI_OK;
    }
    expect("refused in the list", count, refusals, 0);
    refused(1, 1, 0, BORVUKHAI_NO_ROOM);
    ok("clear", borvukhai_clear(HEAP, 0, 1));
    cycle(all, count, freed);
    look();
    for (s = 0; s < count; s++) {
        kept_of(s, FIRST, blocks_of(FIRST));
        freed[s] = blocks_of(FIRST);
    }
    for (made = 0; borvukhai_shape(HEAP, 0, 0) != BORVUKHAI_NIL && made <= all; made++) {
        refusals += borvukhai_load(HEAP, 0, 0, 0, 0) != BORVUKHAI_OK;
    }
    expect("records of the list", count, made, all);
    expect("refused on the way", count, refusals, 0);
    cycle(0, count, freed);
    look();
    for (s = 0; s < count; s++) {
        kept_of(s, FIRST, 0);
    }
}

static void smallest_records(void) {
    last_of_smallest();
    list_of_smallest(1);
    list_of_smallest(MOST_SEGMENTS);
}

/* A new record in root 0: its counts, all its pointers nil, all its values 0, and no field beyond them. */
static void is_new(uint32_t pointers, uint32_t values) {
    uint32_t at, other = 0, p = 0, v = 0;
    ok("shape", borvukhai_shape_to(HEAP, 0, 0, &p, &v));
    expect("pointers", pointers, p, pointers);
    expect("values", values, v, values);
    for (at = 0; at < pointers; at++) {
        other += borvukhai_load(HEAP, 0, 1, 0, at) != BORVUKHAI_OK || borvukhai_shape(HEAP, 0, 1) != BORVUKHAI_NIL;
    }
    for (at = 0; at < values; at++) {
        other += borvukhai_get(HEAP, 0, 0, at) != 0;
    }
    expect("fields that are not nil or 0", pointers, other, 0);
    expect("no such pointer", pointers, borvukhai_load(HEAP, 0, 1, 0, pointers), BORVUKHAI_FIELD);
    expect("no such pointer", pointers, borvukhai_store(HEAP, 0, 0, pointers, 1), BORVUKHAI_FIELD);
    expect("no such value", values, borvukhai_get(HEAP, 0, 0, values), BORVUKHAI_FIELD);
    expect("no such value", values, borvukhai_put(HEAP, 0, 0, values, 1), BORVUKHAI_FIELD);
}

/* The record in root 0 still has what was stored and put first and last: a record with the value 11 behind its first
 * pointer and one with 22 behind its last, and the values 33 and 44. Where there is one only, it has what came last. */
static void is_kept(uint32_t pointers, uint32_t values) {
    uint32_t found = 0;
    if (pointers != 0) {
        ok("load first", borvukhai_load(HEAP, 0, 1, 0, 0));
        ok("load last", borvukhai_load(HEAP, 0, 2, 0, pointers - 1));
        ok("get", borvukhai_get_to(HEAP, 0, 1, 0, &found));
        expect("behind the first pointer", pointers, found, pointers == 1 ? 22 : 11);
        ok("get", borvukhai_get_to(HEAP, 0, 2, 0, &found));
        expect("behind the last pointer", pointers, found, 22);
        expect("first and last are one", pointers, borvukhai_result(borvukhai_same(HEAP, 0, 1, 2)), pointers == 1);
    }
    if (values != 0) {
        ok("get", borvukhai_get_to(HEAP, 0, 0, 0, &found));
        expect("the first value", values, found, values == 1 ? 44 : 33);
        ok("get", borvukhai_get_to(HEAP, 0, 0, values - 1, &found));
        expect("the last value", values, found, 44);
    }
    ok("clear", borvukhai_clear(HEAP, 0, 1));
    ok("clear", borvukhai_clear(HEAP, 0, 2));
}

/* Two records of class 13, in segment 1, go behind the first and the last pointer. */
static void store_first_and_last(uint32_t pointers, uint32_t values) {
    ok("make", borvukhai_make(HEAP, 0, 1, 0, 2047));
    ok("make", borvukhai_make(HEAP, 0, 2, 1, 2046));
    ok("put", borvukhai_put(HEAP, 0, 1, 0, 11));
    ok("put", borvukhai_put(HEAP, 0, 2, 0, 22));
    if (pointers != 0) {
        ok("store first", borvukhai_store(HEAP, 0, 0, 0, 1));
        ok("store last", borvukhai_store(HEAP, 0, 0, pointers - 1, 2));
    }
    if (values != 0) {
        ok("put first", borvukhai_put(HEAP, 0, 0, 0, 33));
        ok("put last", borvukhai_put(HEAP, 0, 0, values - 1, 44));
    }
    is_kept(pointers, values);
}

/* A record of 4,095 fields, from its make to the sweep that frees it. Dead ones fill its segment and that of what is
 * behind its pointers, so that a cycle sweeps both. It keeps the record while a root has it, and what its pointers
 * have; when it is cleared, the next cycle makes its segment free, and that other, be it full or part. */
static void longest(uint32_t pointers, uint32_t values) {
    uint32_t kept = pointers < 2 ? pointers : 2;
    uint32_t first[] = {blocks_of(14) - 1, blocks_of(13) - kept}, second[] = {1, kept};
    memset(memory, 0xa5, sizeof memory);
    opened(2);
    ok("make", borvukhai_make(HEAP, 0, 0, pointers, values));
    is_new(pointers, values);
    store_first_and_last(pointers, values);
    fill(14, 1);
    fill(13, 2);
    look();
    handed_out(0, 14, blocks_of(14), BORVUKHAI_SEGMENT_FULL, 0);
    handed_out(1, 13, blocks_of(13), BORVUKHAI_SEGMENT_FULL, 0);
    cycle(1 + kept, 2, first);
    is_kept(pointers, values);
    look();
    kept_of(0, 14, 1);
    kept_of(1, 13, kept);
    ok("clear", borvukhai_clear(HEAP, 0, 0));
    cycle(0, kept == 0 ? 1 : 2, second);
    look();
    kept_of(0, 14, 0);
    kept_of(1, 13, 0);
}

static void longest_records(void) {
    longest(0, MOST);
    longest(1, MOST - 1);
    longest(2, MOST - 2);
    longest(MOST / 2, MOST - MOST / 2);
    longest(MOST - 1, 1);
    longest(MOST, 0);
}

/* 4,095 fields are accepted and 4,096 refused, however they are split; and so are counts whose sum would wrap. */
static void splits(void) {
    static const uint32_t high[] = {MOST + 1, 65535, 65536, 0x7fffffffu, 0x80000000u, MANY - MOST, MANY - 1, MANY};
    static const uint32_t sums[] = {0, 1, 1023, MOST, MOST + 1};
    uint32_t pointers;
    size_t i, j;
    for (pointers = 0; pointers <= MOST + 1; pointers++) {
        opened(1);
        refused(0, pointers, MOST + 1 - pointers, BORVUKHAI_TOO_BIG);
        if (pointers <= MOST) {
            ok("make", borvukhai_make(HEAP, 0, 0, pointers, MOST - pointers));
        }
    }
    for (i = 0; i < sizeof high / sizeof high[0]; i++) {
        refused(0, high[i], 0, BORVUKHAI_TOO_BIG);
        refused(0, 0, high[i], BORVUKHAI_TOO_BIG);
        for (j = 0; j < sizeof sums / sizeof sums[0]; j++) {
            refused(0, high[i], sums[j] - high[i], BORVUKHAI_TOO_BIG);
            refused(0, sums[j] - high[i], high[i], BORVUKHAI_TOO_BIG);
        }
    }
}

/* 4,096 fields where a lower number applies too, and where 10 would. */
static void order(void) {
    opened(1);
    fill(14, 0);
    expect("size", 1, borvukhai_make(0, kib, memory, BORVUKHAI_LENGTH(1u, kib), 0, 0, MOST + 1, 0), BORVUKHAI_SIZE);
    expect("size", 1, borvukhai_make(1, 24, memory, BORVUKHAI_LENGTH(1u, kib), 0, 0, MOST + 1, 0), BORVUKHAI_SIZE);
    expect("script", 2, borvukhai_make(HEAP, 32, 0, MOST + 1, 0), BORVUKHAI_SCRIPT);
    expect("absent", 4, borvukhai_make(HEAP, 1, 0, MOST + 1, 0), BORVUKHAI_ABSENT);
    refused(16, MOST, 1, BORVUKHAI_SLOT);
    refused(0, MOST, 1, BORVUKHAI_TOO_BIG);
    refused(0, MOST, 0, BORVUKHAI_NO_ROOM);
    refused(0, 0, 1024, BORVUKHAI_NO_ROOM);
    ok("leave", borvukhai_leave(HEAP, 0));
    refused(16, MOST, 1, BORVUKHAI_SIDE);
}

/* Two segments of class 14, of one block each at 16 KiB and of two at 32: so many records find room, and the next does
 * not; what a cycle frees is used again. */
static void one_too_many(void) {
    static const uint32_t freed[] = {0, 1};
    uint32_t made, all = 2 * blocks_of(14);
    opened(2);
    for (made = 0; made < all; made++) {
        ok("make", made % 2 == 0 ? borvukhai_make(HEAP, 0, made, 0, 2048) : borvukhai_make(HEAP, 0, made, MOST, 0));
    }
    refused(all, 0, MOST, BORVUKHAI_NO_ROOM);
    refused(all, 0, 0, BORVUKHAI_NO_ROOM);
    look();
    handed_out(0, 14, blocks_of(14), BORVUKHAI_SEGMENT_FULL, 0);
    handed_out(1, 14, blocks_of(14), BORVUKHAI_SEGMENT_FULL, 0);
    ok("clear", borvukhai_clear(HEAP, 0, all - 1));
    cycle(all - 1, 2, freed);
    look();
    kept_of(0, 14, blocks_of(14));
    kept_of(1, 14, blocks_of(14) - 1);
    ok("make", borvukhai_make(HEAP, 0, all, 0, MOST));
    refused(all - 1, 0, MOST, BORVUKHAI_NO_ROOM);
}

int main(void) {
    static const struct {
        const char *name;
        void (*run)(void);
    } parts[] = {{"a detach hands back a segment of each class", hands_back},
                 {"the blocks of each class", blocks},
                 {"the last block of class 3, and all of 1 and of 256 segments", smallest_records},
                 {"records of 4,095 fields", longest_records},
                 {"4,095 and 4,096 fields in every split", splits},
                 {"4,096 fields in the order of refusals", order},
                 {"as many records of class 14 as there is room for, and one more", one_too_many}};
    size_t i;
    for (kib = 16; kib <= 32; kib += 16) {
        for (i = 0; i < sizeof parts / sizeof parts[0]; i++) {
            int failed = failures;
            int tried = checks;
            parts[i].run();
            printf("%u KiB, %s: %d checks, %d failed\n", (unsigned)kib, parts[i].name, checks - tried,
                   failures - failed);
        }
    }
    return failures == 0 ? 0 : 1;
}
