/* The traps of the plain answers, each fallen into as a newcomer does, and then avoided by what include/borvukhai.h has
 * for it, at both segment sizes. A line for each; on the error output what was expected where something else came. The
 * trap of 32-bit targets is in bindings/port/test, that of pacing in examples/paced.c, and that of a stale library in
 * bindings/c/test. */
#include "borvukhai.h"

#include <stdio.h>
#include <string.h>

#define SEGMENTS 1u
#define WORDS BORVUKHAI_LENGTH(SEGMENTS, kib)
#define SCRATCH BORVUKHAI_SCRATCH_LENGTH(SEGMENTS, kib)
#define STATES BORVUKHAI_STATES_LENGTH(SEGMENTS, kib)
#define HEAP SEGMENTS, kib, memory, WORDS

static uint32_t kib, memory[BORVUKHAI_LENGTH(SEGMENTS, 32u)], output[BORVUKHAI_STATES_LENGTH(SEGMENTS, 32u)];
static uint32_t scratch[BORVUKHAI_SCRATCH_LENGTH(SEGMENTS, 32u)];
static int failures;

static void expect(const char *what, uint64_t got, uint64_t wanted) {
    if (got != wanted) {
        fprintf(stderr, "%s: %llu, expected %llu\n", what, (unsigned long long)got, (unsigned long long)wanted);
        failures++;
    }
}

/* A heap with mutator 0 inside, and a record of one pointer and two values in its root 0. */
static void fresh(void) {
    expect("open", borvukhai_open(HEAP), 0);
    expect("attach", borvukhai_attach(HEAP, 0), 0);
    expect("make", borvukhai_make(HEAP, 0, 0, 1, 2), 0);
}

/* 0 is what every other call answers where all is well; of the examination it says that the memory is torn. */
static void examined_with_equals_0(void) {
    fresh();
    expect("before: sound memory is taken for torn", borvukhai_examine(HEAP, scratch, SCRATCH) == 0, 0);
    expect("after: sound", (uint64_t)borvukhai_is_sound(HEAP, scratch, SCRATCH), 1);
    memset(memory, 0xff, sizeof memory);
    expect("before: torn memory is accepted", borvukhai_examine(HEAP, scratch, SCRATCH) == 0, 1);
    expect("after: torn", (uint64_t)borvukhai_is_sound(HEAP, scratch, SCRATCH), 0);
    fresh();
    expect("after: a wrong length",
           (uint64_t)borvukhai_is_sound(SEGMENTS, kib, memory, WORDS - 1, scratch, SCRATCH), 0);
}

/* The value stands in the upper half: a plain assignment keeps the refusal and loses it. */
static void value_cut_off(void) {
    uint32_t value;
    fresh();
    expect("put", borvukhai_put(HEAP, 0, 0, 1, 77), 0);
    value = (uint32_t)borvukhai_get(HEAP, 0, 0, 1);
    expect("before: the value is lost", value, 0);
    expect("after: not refused", borvukhai_get_to(HEAP, 0, 0, 1, &value), 0);
    expect("after: the value", value, 77);
}

/* The result of a refused answer is 0, which is a value too. */
static void refusal_read_as_0(void) {
    uint32_t value = 5, same = 5, phase = 5, pointers = 5, values = 5;
    fresh();
    expect("before: a nil root has the value 0", borvukhai_result(borvukhai_get(HEAP, 0, 9, 0)), 0);
    expect("after: refused", borvukhai_get_to(HEAP, 0, 9, 0, &value), BORVUKHAI_NIL);
    expect("after: same refused", borvukhai_same_to(HEAP, 0, 0, 16, &same), BORVUKHAI_BAD_ROOT);
    expect("after: shape refused", borvukhai_shape_to(HEAP, 32, 0, &pointers, &values), BORVUKHAI_BAD_MUTATOR);
    expect("after: phase refused", borvukhai_phase_to(SEGMENTS, kib, memory, WORDS - 1, &phase), BORVUKHAI_SIZE);
    expect("after: nothing is written", value == 5 && same == 5 && phase == 5 && pointers == 5 && values == 5, 1);
    expect("after: same", borvukhai_same_to(HEAP, 0, 0, 0, &same), 0);
    expect("after: shape", borvukhai_shape_to(HEAP, 0, 0, &pointers, &values), 0);
    expect("after: phase", borvukhai_phase_to(HEAP, &phase), 0);
    expect("after: the results", same == 1 && phase == BORVUKHAI_IDLE && pointers == 1 && values == 2, 1);
}

/* A whole cycle by step_to; comparing the answer itself with a kind never meets DONE. */
static void step_compared(void) {
    struct borvukhai_stepped stepped = {0, 0, 0, 0};
    uint32_t steps = 0, done = 0;
    fresh();
    expect("start", borvukhai_start(HEAP), 0);
    expect("leave", borvukhai_leave(HEAP, 0), 0);
    do {
        done += borvukhai_step(HEAP) == BORVUKHAI_STEP_DONE;
    } while (++steps < 100);
    expect("before: a cycle that ends never", done, 0);
    expect("start", borvukhai_start(HEAP), 0);
    for (steps = 1; borvukhai_step_to(HEAP, &stepped) == 0 && stepped.kind != BORVUKHAI_STEP_DONE; steps++) {
    }
    expect("after: done in so many steps", steps, 5);
    expect("after: refused, nothing written", borvukhai_step_to(0, kib, memory, WORDS, &stepped), BORVUKHAI_SIZE);
    expect("after: the kind stays", stepped.kind, BORVUKHAI_STEP_DONE);
}

/* The parts of a step: the mutators waited for, the segment and its free blocks. */
static void step_parts(void) {
    struct borvukhai_stepped stepped = {0, 0, 0, 0};
    uint32_t made, freed = 0;
    fresh();
    for (made = 1; made < BORVUKHAI_BLOCKS(kib, BORVUKHAI_CLASS_OF(1 + 2)); made++) {
        expect("make", borvukhai_make(HEAP, 0, 0, 1, 2), 0);
    }
    expect("start", borvukhai_start(HEAP), 0);
    expect("step", borvukhai_step_to(HEAP, &stepped), 0);
    expect("waiting", stepped.kind == BORVUKHAI_STEP_WAITING && stepped.waiting == 1 && stepped.freed == 0, 1);
    expect("leave", borvukhai_leave(HEAP, 0), 0);
    while (borvukhai_step_to(HEAP, &stepped) == 0 && stepped.kind != BORVUKHAI_STEP_DONE) {
        freed += stepped.freed;
        expect("of a segment", stepped.segment, 0);
    }
    expect("freed", freed, made - 1);
}

/* The constants of a count and a size, as the library has them. */
static void lengths_of(uint32_t n, uint32_t size, uint32_t are) {
    expect("after: as the library", BORVUKHAI_LENGTH(n, size), borvukhai_length(n, size));
    expect("after: as the library", BORVUKHAI_STATES_LENGTH(n, size), borvukhai_states_length(n, size));
    expect("after: as the library", BORVUKHAI_SCRATCH_LENGTH(n, size), borvukhai_scratch_length(n, size));
    expect("after: as the library", BORVUKHAI_IS_SIZE(size) ? BORVUKHAI_SHEET_LENGTH(n) : 0,
           borvukhai_sheet_length(n, size));
    expect("after: a count and a size", BORVUKHAI_IS_COUNT(n) && BORVUKHAI_IS_SIZE(size), are);
    expect("after: a length", BORVUKHAI_LENGTH(n, size) != 0, are);
}

/* A length for a count or a size that the library refuses. */
static void length_of_none(void) {
    static const uint32_t none[] = {0, 257, 0xffffffffu};
    static const uint32_t sizes[] = {0, 1, 15, 17, 31, 33, 64, 16384, 32768, 0xffffffffu};
    uint32_t one = BORVUKHAI_LENGTH(1u, kib), each = BORVUKHAI_LENGTH(2u, kib) - one;
    size_t i;
    lengths_of(1, kib, 1);
    lengths_of(256, kib, 1);
    for (i = 0; i < sizeof none / sizeof none[0]; i++) {
        expect("before: the formula gives a length", each * none[i] + (one - each) != 0, 1);
        lengths_of(none[i], kib, 0);
    }
    for (i = 0; i < sizeof sizes / sizeof sizes[0]; i++) {
        lengths_of(1, sizes[i], 0);
        lengths_of(256, sizes[i], 0);
        lengths_of(0xffffffffu, sizes[i], 0);
    }
}

/* A call that names the other size would look elsewhere for the record: its slice has another length, so it is refused. */
static void the_other_size(void) {
    uint32_t other = kib == 32 ? 16 : 32, value = 5;
    fresh();
    expect("put", borvukhai_put(HEAP, 0, 0, 1, 77), 0);
    expect("refused", borvukhai_get_to(SEGMENTS, other, memory, WORDS, 0, 0, 1, &value), BORVUKHAI_SIZE);
    expect("nothing is written", value, 5);
    expect("not sound", (uint64_t)borvukhai_is_sound(SEGMENTS, other, memory, WORDS, scratch, SCRATCH), 0);
    expect("the size of the opening", borvukhai_get_to(HEAP, 0, 0, 1, &value), 0);
    expect("the value", value, 77);
}

/* Zeros that nobody opened: a mutator attaches, and every make is refused "no room". */
static void never_opened(void) {
    memset(memory, 0, sizeof memory);
    expect("before: attach", borvukhai_attach(HEAP, 0), 0);
    expect("before: an empty heap without room", borvukhai_make(HEAP, 0, 0, 1, 2), BORVUKHAI_NO_ROOM);
    expect("after: the text says so", strstr(borvukhai_refusal_text(BORVUKHAI_NO_ROOM), "never opened") != NULL, 1);
    expect("after: the examination says so", (uint64_t)borvukhai_is_sound(HEAP, scratch, SCRATCH), 0);
}

/* A caller compiled for one layout and linked with a library of another: its lengths are refused at best. */
static void another_layout(void) {
    expect("before: words of another layout", borvukhai_open(SEGMENTS, kib, memory, WORDS - 1), BORVUKHAI_SIZE);
    expect("after: the library says its number", borvukhai_layout(), BORVUKHAI_LAYOUT);
    expect("after: and the header compares it", (uint64_t)borvukhai_check_layout(), 1);
}

/* Every refusal has a sentence and a name of its own. */
static void texts(void) {
    uint32_t a, b;
    for (a = 0; a <= 14; a++) {
        for (b = 0; b < a; b++) {
            int same = strcmp(borvukhai_refusal_text(a), borvukhai_refusal_text(b)) == 0;
            expect("the same text twice", (uint64_t)same, a == 14 && b == 12); /* neither is a refusal's number */
            same = strcmp(borvukhai_refusal_name(a), borvukhai_refusal_name(b)) == 0;
            expect("the same name twice", (uint64_t)same, a == 14 && b == 12);
        }
    }
#define NAMED(name) expect("the name of " #name, (uint64_t)strcmp(borvukhai_refusal_name(BORVUKHAI_##name), #name), 0)
    NAMED(OK), NAMED(SIZE), NAMED(BAD_MUTATOR), NAMED(TAKEN), NAMED(ABSENT), NAMED(SIDE), NAMED(BAD_ROOT), NAMED(NIL);
    NAMED(FIELD), NAMED(TOO_BIG), NAMED(NO_ROOM), NAMED(NOT_NOW), NAMED(TORN);
    expect("no name", borvukhai_refusal_name(12)[0] == 0 && borvukhai_refusal_name(0xffffffffu)[0] == 0, 1);
    expect("names", BORVUKHAI_BAD_MUTATOR == 2 && BORVUKHAI_BAD_ROOT == 6 && BORVUKHAI_NIL == 7, 1);
}

/* The class and the blocks that the library itself gives records of so many fields, made until no room is left. */
static void class_of(uint32_t fields) {
    uint32_t made = 0, refused;
    expect("open", borvukhai_open(HEAP), 0);
    expect("attach", borvukhai_attach(HEAP, 0), 0);
    while ((refused = borvukhai_make(HEAP, 0, 0, fields / 2, fields - fields / 2)) == 0) {
        made++;
    }
    expect("states", borvukhai_states(HEAP, output, STATES), 0);
    expect("refused", refused, BORVUKHAI_CLASS_OF(fields) ? BORVUKHAI_NO_ROOM : BORVUKHAI_TOO_BIG);
    expect("class", output[BORVUKHAI_STATE_CLASS], BORVUKHAI_CLASS_OF(fields));
    expect("blocks", made, BORVUKHAI_BLOCKS(kib, BORVUKHAI_CLASS_OF(fields)));
    expect("place", output[BORVUKHAI_STATE_PLACE], made);
    expect("handed out", output[BORVUKHAI_STATE_HANDED_OUT], made);
}

static void classes(void) {
    static const char constant[BORVUKHAI_BLOCKS(16, BORVUKHAI_CLASS_OF(2047))] = {0};
    static const char other[BORVUKHAI_BLOCKS(32, BORVUKHAI_CLASS_OF(4095))] = {0};
    uint32_t fields, number;
    expect("as a constant", sizeof constant, 2);
    expect("as a constant", sizeof other, 2);
    for (fields = 0; fields <= 4100; fields++) {
        class_of(fields);
    }
    class_of(0xffffffffu);
    for (number = 0; number < 70; number++) {
        expect("no class", BORVUKHAI_BLOCKS(kib, number) != 0, number >= 3 && number <= 14);
        expect("no size", BORVUKHAI_BLOCKS(number, 3u) != 0, number == 16 || number == 32);
    }
    expect("no class", BORVUKHAI_BLOCKS(kib, 0xffffffffu), 0);
    expect("no size", BORVUKHAI_BLOCKS(0xffffffffu, 3u), 0);
}

int main(void) {
    static const struct {
        const char *name;
        void (*run)(void);
    } parts[] = {{"the examination compared with 0", examined_with_equals_0},
                 {"a value cut off", value_cut_off},
                 {"a refusal read as 0", refusal_read_as_0},
                 {"a step's answer compared with a kind", step_compared},
                 {"a step's parts", step_parts},
                 {"a length of no count or size", length_of_none},
                 {"the other segment size", the_other_size},
                 {"memory that was never opened", never_opened},
                 {"a library of another layout", another_layout},
                 {"texts and names", texts},
                 {"classes and blocks, as the library has them", classes}};
    size_t i;
    for (kib = 16; kib <= 32; kib += 16) {
        for (i = 0; i < sizeof parts / sizeof parts[0]; i++) {
            int failed = failures;
            parts[i].run();
            printf("%u KiB, %s: %s\n", (unsigned)kib, parts[i].name, failures == failed ? "avoided" : "FAILED");
        }
    }
    return failures == 0 ? 0 : 1;
}
