/* Provokes each refusal number of include/borvukhai.h, from every call that gives it and at both segment sizes, and
 * tries the lengths, the looks, cycles over nothing and a long record after short ones. It prints a line for each part
 * and size, and says on the error output what was expected where something else came. */
#include "borvukhai.h"

#include <stdio.h>
#include <string.h>

/* One heap of a segment is enough for every refusal; the lengths are those of the header. */
#define SEGMENTS 1u
#define WORDS BORVUKHAI_LENGTH(SEGMENTS, kib)
#define STATES BORVUKHAI_STATES_LENGTH(SEGMENTS, kib)
#define SCRATCH BORVUKHAI_SCRATCH_LENGTH(SEGMENTS, kib)
#define SHEET BORVUKHAI_SHEET_LENGTH(SEGMENTS)
#define MANY 0xffffffffu
#define LAYOUT_2(n) (6290u * (n) + 1051u) /* the words of the layouts before this one, at 16 KiB */
#define LAYOUT_3(n) (6292u * (n) + 1053u)

/* Each slice has the words of MOST segments, for counts and lengths that are too large. */
#define MOST 4u
static uint32_t kib;
static uint32_t memory[BORVUKHAI_LENGTH(MOST, 32u)];
static uint32_t before[BORVUKHAI_LENGTH(MOST, 32u)];
static uint32_t output[BORVUKHAI_STATES_LENGTH(MOST, 32u)];
static uint32_t scratch[BORVUKHAI_SCRATCH_LENGTH(MOST, 32u)];
static uint8_t sheet[BORVUKHAI_SHEET_LENGTH(MOST)];
#define HEAP SEGMENTS, kib, memory, WORDS
#define LENT (WORDS * sizeof memory[0]) /* bytes */

/* Four records of one pointer and so many values fill a segment: of class 12 at 16 KiB, of class 13 at 32. */
#define VALUES (kib == 32 ? 1200u : 600u)
#define FOUR (kib == 32 ? 13u : 12u)

/* Where docs/LAYOUT.md puts the words that the torn cases break. */
enum {
    PHASE_AT = 0,
    TRACE_COUNT_AT = 1,
    ROOT_AT = 16,      /* root 0 of mutator 0 */
    CLASSES = 12,      /* from class 3 on */
    HOLDS_AT = 16 + 18 /* the segments that mutator 0 holds, by class */
};
#define HEAP_WORDS (256u * kib * SEGMENTS)
#define HELD_AT (HOLDS_AT + FOUR - 3) /* that of the class with four blocks */
#define TAG_AT (1040 + HEAP_WORDS)
#define FREE_AT (TAG_AT + 6 * SEGMENTS)   /* the free stack */
#define PARTS_AT (FREE_AT + 1 + SEGMENTS) /* the part stacks, by class */
#define BITMAPS_AT (FREE_AT + 13 * (1 + SEGMENTS))
#define MARKS_AT (BITMAPS_AT + (kib == 32 ? 133u : 67u) * SEGMENTS) /* the marks, a bit for 8 bytes */
#define OFF_HEAP (HEAP_WORDS + 1) /* a reference one past the last word of the heap */

/* The mutators' calls, so that a refusal can be asked of each of them. */
enum call { ATTACH, SPAWN, DETACH, MAKE, LOAD, STORE, PUT, COPY, CLEAR, CHECK, LEAVE, ENTER, GET, SAME, SHAPE, CALLS };

static const char *const names[CALLS] = {"attach", "spawn", "detach", "make",  "load", "store", "put",  "copy",
                                         "clear",  "check", "leave",  "enter", "get",  "same",  "shape"};

static int checks;
static int failures;

static void expect(const char *what, const char *who, uint64_t got, uint64_t wanted) {
    checks++;
    if (got != wanted) {
        fprintf(stderr, "%s %s: %llu, expected %llu\n", what, who, (unsigned long long)got, (unsigned long long)wanted);
        failures++;
    }
}

/* The refusal of a call that names one mutator, one root for all its roots and one field. A spawn's parent is mutator 0. */
static uint32_t refusal_at(enum call call, uint32_t segments, uint32_t size, size_t length, uint32_t mutator,
                           uint32_t root, uint32_t field) {
    switch (call) {
    case ATTACH:
        return borvukhai_attach(segments, size, memory, length, mutator);
    case SPAWN:
        return borvukhai_spawn(segments, size, memory, length, mutator, 0, root);
    case DETACH:
        return borvukhai_detach(segments, size, memory, length, mutator);
    case MAKE:
        return borvukhai_make(segments, size, memory, length, mutator, root, 1, VALUES);
    case LOAD:
        return borvukhai_load(segments, size, memory, length, mutator, root, root, field);
    case STORE:
        return borvukhai_store(segments, size, memory, length, mutator, root, field, root);
    case PUT:
        return borvukhai_put(segments, size, memory, length, mutator, root, field, 1);
    case COPY:
        return borvukhai_copy(segments, size, memory, length, mutator, root, root);
    case CLEAR:
        return borvukhai_clear(segments, size, memory, length, mutator, root);
    case CHECK:
        return borvukhai_check(segments, size, memory, length, mutator);
    case LEAVE:
        return borvukhai_leave(segments, size, memory, length, mutator);
    case ENTER:
        return borvukhai_enter(segments, size, memory, length, mutator);
    case GET:
        return borvukhai_refusal(borvukhai_get(segments, size, memory, length, mutator, root, field));
    case SAME:
        return borvukhai_refusal(borvukhai_same(segments, size, memory, length, mutator, root, root));
    default:
        return borvukhai_refusal(borvukhai_shape(segments, size, memory, length, mutator, root));
    }
}

static uint32_t refusal(enum call call, uint32_t mutator, uint32_t root, uint32_t field) {
    return refusal_at(call, SEGMENTS, kib, WORDS, mutator, root, field);
}

/* A call is refused with a number, and no word has changed. */
static void refused(const char *what, enum call call, uint32_t mutator, uint32_t root, uint32_t field, uint32_t wanted) {
    memcpy(before, memory, sizeof memory);
    expect(what, names[call], refusal(call, mutator, root, field), wanted);
    expect(what, "keeps the memory", memcmp(before, memory, sizeof memory) == 0, 1);
}

static void ok(const char *who, uint32_t answer) {
    expect("ok", who, answer, BORVUKHAI_OK);
}

/* A heap with mutator 0 inside. */
static void fresh(void) {
    memset(memory, 0xa5, sizeof memory);
    ok("open", borvukhai_open(HEAP));
    ok("attach", borvukhai_attach(HEAP, 0));
}

/* A fresh heap whose one segment four records fill. */
static void full(void) {
    uint32_t root;
    fresh();
    for (root = 0; root < 4; root++) {
        ok("make", borvukhai_make(HEAP, 0, root, 1, VALUES));
    }
}

/* The calls that name no mutator, refused 1, with outputs and a scratch of these lengths. */
static void size_of_others(uint32_t segments, uint32_t size, size_t length, size_t states, size_t bytes,
                           size_t examined) {
    expect("size", "open", borvukhai_open(segments, size, memory, length), BORVUKHAI_SIZE);
    expect("size", "start", borvukhai_start(segments, size, memory, length), BORVUKHAI_SIZE);
    expect("size", "step", borvukhai_step(segments, size, memory, length), BORVUKHAI_SIZE);
    expect("size", "phase", borvukhai_phase(segments, size, memory, length), BORVUKHAI_SIZE);
    expect("size", "states", borvukhai_states(segments, size, memory, length, output, states), BORVUKHAI_SIZE);
    expect("size", "sheet", borvukhai_sheet(segments, size, memory, length, sheet, bytes), BORVUKHAI_SIZE);
    expect("size", "examine", borvukhai_examine(segments, size, memory, length, scratch, examined), BORVUKHAI_SIZE);
}

/* Every call and look with a count, a size or a length that is wrong. The other numbers are wrong too, or right;
 * outputs and scratch are of one segment at 16 KiB or at 32, or of four, or empty. */
static void size_of(uint32_t segments, uint32_t size, size_t length) {
    int at;
    for (at = 0; at < CALLS; at++) {
        enum call call = (enum call)at;
        expect("size", names[at], refusal_at(call, segments, size, length, MANY, MANY, MANY), BORVUKHAI_SIZE);
        expect("size", names[at], refusal_at(call, segments, size, length, at < DETACH, 0, 0), BORVUKHAI_SIZE);
    }
    size_of_others(segments, size, length, STATES, SHEET, 2176);
    size_of_others(segments, size, length, STATES, SHEET, 4352);
    size_of_others(segments, size, length, BORVUKHAI_STATES_LENGTH(MOST, 32u), sizeof sheet,
                   BORVUKHAI_SCRATCH_LENGTH(MOST, 32u));
    size_of_others(segments, size, length, 0, 0, 0);
}

/* The lengths of one segment and of four at both sizes, and some that none has. */
static void size_of_each_length(uint32_t segments, uint32_t size) {
    const size_t lengths[] = {7347, 13621, 26229, 51325, 0, 1, WORDS - 1, WORDS + 1};
    size_t i;
    for (i = 0; i < sizeof lengths / sizeof lengths[0]; i++) {
        size_of(segments, size, lengths[i]);
    }
}

/* Every byte of a slice is as it was set. */
static int untouched(const void *slice, size_t bytes) {
    const uint8_t *at = (const uint8_t *)slice;
    size_t i;
    for (i = 0; i < bytes && at[i] == 0x5a; i++) {
    }
    return i == bytes;
}

/* A full heap, and what the calls after it must leave. */
static void size_begins(void) {
    full();
    memcpy(before, memory, sizeof memory);
    memset(output, 0x5a, sizeof output);
    memset(sheet, 0x5a, sizeof sheet);
    memset(scratch, 0x5a, sizeof scratch);
}

static void size_ends(void) {
    expect("size", "keeps the memory", memcmp(before, memory, sizeof memory) == 0, 1);
    expect("size", "keeps the output", untouched(output, sizeof output), 1);
    expect("size", "keeps the sheet", untouched(sheet, sizeof sheet), 1);
    expect("size", "keeps the scratch", untouched(scratch, sizeof scratch), 1);
}

/* Lengths that are not the heap's, and those of the layouts before this one. */
static void size_lengths(void) {
    const size_t lengths[] = {WORDS - 1, WORDS + 1, 0, LAYOUT_2(1), LAYOUT_3(1)};
    uint32_t n;
    for (n = 0; n < sizeof lengths / sizeof lengths[0]; n++) {
        size_of(SEGMENTS, kib, lengths[n]);
    }
    for (n = 2; n <= MOST; n++) {
        size_of(n, kib, LAYOUT_2(n));
        size_of(n, kib, LAYOUT_3(n));
    }
}

/* Sizes that are none with every count, and counts that are none with both sizes. */
static void size_numbers(void) {
    static const uint32_t sizes[] = {0, 1, 15, 17, 31, 33, 64, 16384, 32768, MANY};
    static const uint32_t counts[] = {0, 257, MANY, 1, 2, MOST, 256};
    size_t i, j;
    for (i = 0; i < sizeof counts / sizeof counts[0]; i++) {
        for (j = 0; j < sizeof sizes / sizeof sizes[0]; j++) {
            size_of_each_length(counts[i], sizes[j]);
        }
    }
    for (i = 0; i < 3; i++) {
        size_of_each_length(counts[i], 16);
        size_of_each_length(counts[i], 32);
    }
}

/* The heap's own slice with another count, the other size, or both. */
static void size_of_another(void) {
    uint32_t n;
    for (n = 0; n <= 257; n++) {
        size_of(n, kib == 32 ? 16 : 32, WORDS);
        if (n != SEGMENTS) {
            size_of(n, kib, WORDS);
        }
    }
}

static void size(void) {
    uint32_t other = kib == 32 ? 2176 : 4352;
    size_begins();
    size_lengths();
    size_numbers();
    size_of_another();
    expect("size", "output too short", borvukhai_states(HEAP, output, STATES - 1), BORVUKHAI_SIZE);
    expect("size", "output of layout 3", borvukhai_states(HEAP, output, 4 * SEGMENTS), BORVUKHAI_SIZE);
    expect("size", "output too long", borvukhai_states(HEAP, output, STATES + 1), BORVUKHAI_SIZE);
    expect("size", "sheet too short", borvukhai_sheet(HEAP, sheet, SHEET - 1), BORVUKHAI_SIZE);
    expect("size", "sheet too long", borvukhai_sheet(HEAP, sheet, SHEET + 1), BORVUKHAI_SIZE);
    expect("size", "scratch too short", borvukhai_examine(HEAP, scratch, SCRATCH - 1), BORVUKHAI_SIZE);
    expect("size", "scratch too long", borvukhai_examine(HEAP, scratch, SCRATCH + 1), BORVUKHAI_SIZE);
    expect("size", "scratch of the other size", borvukhai_examine(HEAP, scratch, other), BORVUKHAI_SIZE);
    size_ends();
}

static void script(void) {
    int call;
    full();
    for (call = 0; call < CALLS; call++) {
        refused("script", (enum call)call, 32, MANY, MANY, BORVUKHAI_SCRIPT);
        refused("script", (enum call)call, MANY, 0, 0, BORVUKHAI_SCRIPT);
    }
    expect("script", "spawn's parent", borvukhai_spawn(HEAP, 1, 32, 0), BORVUKHAI_SCRIPT);
}

static void taken(void) {
    full();
    refused("taken", ATTACH, 0, 0, 0, BORVUKHAI_TAKEN);
    refused("taken", SPAWN, 0, MANY, 0, BORVUKHAI_TAKEN);
}

static void absent(void) {
    int call;
    full();
    for (call = DETACH; call < CALLS; call++) {
        refused("absent", (enum call)call, 31, MANY, MANY, BORVUKHAI_ABSENT);
    }
    expect("absent", "spawn's parent", borvukhai_spawn(HEAP, 1, 31, MANY), BORVUKHAI_ABSENT);
}

static void side(void) {
    int call;
    full();
    refused("side", ENTER, 0, 0, 0, BORVUKHAI_SIDE);
    ok("leave", borvukhai_leave(HEAP, 0));
    for (call = DETACH; call < CALLS; call++) {
        if (call != ENTER) {
            refused("side", (enum call)call, 0, MANY, MANY, BORVUKHAI_SIDE);
        }
    }
    refused("side", SPAWN, 1, MANY, 0, BORVUKHAI_SIDE);
    ok("enter", borvukhai_enter(HEAP, 0));
}

static void slot(void) {
    static const enum call calls[] = {MAKE, LOAD, STORE, PUT, COPY, CLEAR, GET, SAME, SHAPE};
    size_t i;
    full();
    for (i = 0; i < sizeof calls / sizeof calls[0]; i++) {
        refused("slot", calls[i], 0, 16, MANY, BORVUKHAI_SLOT);
        refused("slot", calls[i], 0, MANY, 0, BORVUKHAI_SLOT);
    }
    refused("slot", SPAWN, 1, 16, 0, BORVUKHAI_SLOT);
    expect("slot", "store's from", borvukhai_store(HEAP, 0, 0, 0, 16), BORVUKHAI_SLOT);
    expect("slot", "same's other", borvukhai_refusal(borvukhai_same(HEAP, 0, 0, 16)), BORVUKHAI_SLOT);
}

static void dark(void) {
    static const enum call calls[] = {LOAD, STORE, PUT, GET, SHAPE};
    size_t i;
    full();
    for (i = 0; i < sizeof calls / sizeof calls[0]; i++) {
        refused("dark", calls[i], 0, 15, MANY, BORVUKHAI_DARK);
    }
}

static void field(void) {
    full();
    refused("field", LOAD, 0, 0, 1, BORVUKHAI_FIELD);
    refused("field", STORE, 0, 0, 1, BORVUKHAI_FIELD);
    refused("field", PUT, 0, 0, VALUES, BORVUKHAI_FIELD);
    refused("field", GET, 0, 0, VALUES, BORVUKHAI_FIELD);
    refused("field", LOAD, 0, 0, MANY, BORVUKHAI_FIELD);
    refused("field", STORE, 0, 0, MANY, BORVUKHAI_FIELD);
    refused("field", PUT, 0, 0, MANY, BORVUKHAI_FIELD);
    refused("field", GET, 0, 0, MANY, BORVUKHAI_FIELD);
}

static void too_big(void) {
    fresh();
    expect("too big", "4095 + 1", borvukhai_make(HEAP, 0, 0, 4095, 1), BORVUKHAI_TOO_BIG);
    expect("too big", "0 + 4096", borvukhai_make(HEAP, 0, 0, 0, 4096), BORVUKHAI_TOO_BIG);
    expect("too big", "a sum that would wrap", borvukhai_make(HEAP, 0, 0, MANY, 2), BORVUKHAI_TOO_BIG);
    expect("too big", "both", borvukhai_make(HEAP, 0, 0, MANY, MANY), BORVUKHAI_TOO_BIG);
    ok("4000 + 95", borvukhai_make(HEAP, 0, 0, 4000, 95));
}

static void no_room(void) {
    full();
    refused("no room", MAKE, 0, 4, 0, BORVUKHAI_NO_ROOM);
    expect("no room", "of another class", borvukhai_make(HEAP, 0, 4, 0, 0), BORVUKHAI_NO_ROOM);
}

static void not_now(void) {
    full();
    ok("start", borvukhai_start(HEAP));
    refused("not now", ATTACH, 1, 0, 0, BORVUKHAI_NOT_NOW);
    refused("not now", SPAWN, 1, 0, 0, BORVUKHAI_NOT_NOW);
    refused("not now", DETACH, 0, 0, 0, BORVUKHAI_NOT_NOW);
    expect("not now", "start", borvukhai_start(HEAP), BORVUKHAI_NOT_NOW);
}

/* A root that names a word off the heap: the calls that want its record. */
static void torn_root(void) {
    static const enum call calls[] = {LOAD, STORE, PUT, GET, SHAPE};
    size_t i;
    for (i = 0; i < sizeof calls / sizeof calls[0]; i++) {
        full();
        memory[ROOT_AT] = OFF_HEAP;
        expect("torn", names[calls[i]], refusal(calls[i], 0, 0, 0), BORVUKHAI_TORN);
    }
}

/* The same root in the second handshake, where an acknowledgement enters the roots on the trace stack. */
static void torn_handshake(enum call call) {
    full();
    memory[ROOT_AT] = OFF_HEAP;
    ok("start", borvukhai_start(HEAP));
    ok("check", borvukhai_check(HEAP, 0));
    expect("torn", "second handshake", borvukhai_step_kind(borvukhai_step(HEAP)), BORVUKHAI_STEP_MOVED);
    expect("torn", names[call], refusal(call, 0, 0, 0), BORVUKHAI_TORN);
}

/* A held segment that is none. */
static void torn_hold(enum call call) {
    fresh();
    memory[HELD_AT] = SEGMENTS + 1;
    expect("torn", names[call], refusal(call, 0, 0, 0), BORVUKHAI_TORN);
}

/* Segment 0 in any state, with a class that is not its own or none at all. Mutator 0 holds it for every class, or it is
 * on every class's part stack, so that each call meets it. */
static void break_class(uint32_t tag, uint32_t class_, uint32_t phase, uint32_t held) {
    uint32_t at;
    full();
    memory[PHASE_AT] = phase;
    memory[TAG_AT] = tag;
    memory[TAG_AT + BORVUKHAI_STATE_CLASS] = class_;
    memory[TAG_AT + BORVUKHAI_STATE_PLACE] = 0;
    for (at = 0; at < CLASSES; at++) {
        memory[HOLDS_AT + at] = held;
        memory[PARTS_AT + (1 + SEGMENTS) * at] = !held;
        memory[PARTS_AT + (1 + SEGMENTS) * at + 1] = 0;
    }
    memcpy(before, memory, LENT);
}

/* An answer is a result, or a refusal of the list and nothing above it; then the memory is as it was broken. */
static void listed(const char *who, uint64_t answer) {
    uint32_t number = borvukhai_refusal(answer);
    expect("torn class", who, borvukhai_refusal_name(number)[0] != 0 && (number == 0 || borvukhai_result(answer) == 0), 1);
    memcpy(memory, before, LENT);
}

/* Every call and look, and eight steps one after the other. */
static void torn_class(void) {
    int call, steps;
    for (call = 0; call < CALLS; call++) {
        listed(names[call], refusal((enum call)call, call < DETACH, 0, 0));
    }
    listed("make of class 13", borvukhai_make(HEAP, 0, 0, 1, 2046));
    listed("make of class 14", borvukhai_make(HEAP, 0, 0, 1, 4094));
    listed("get", borvukhai_get(HEAP, 0, 0, 0));
    listed("shape", borvukhai_shape(HEAP, 0, 0));
    listed("open", borvukhai_open(HEAP));
    listed("start", borvukhai_start(HEAP));
    listed("phase", borvukhai_phase(HEAP));
    listed("states", borvukhai_states(HEAP, output, STATES));
    listed("sheet", borvukhai_sheet(HEAP, sheet, SHEET));
    expect("torn class", "examine", borvukhai_examine(HEAP, scratch, SCRATCH), 0);
    for (steps = 0; steps < 8; steps++) {
        uint64_t answer = borvukhai_step(HEAP);
        memcpy(before, memory, LENT); /* the next one goes on */
        listed("step", answer);
    }
}

static void torn_classes(void) {
    static const uint32_t words[] = {13, 14, 15, 16, MANY};
    uint32_t i, tag, now, held;
    for (i = 0; i < sizeof words / sizeof words[0]; i++) {
        for (tag = BORVUKHAI_SEGMENT_FREE; tag <= BORVUKHAI_SEGMENT_CONDEMNED; tag++) {
            for (now = BORVUKHAI_IDLE; now <= BORVUKHAI_SWEEP; now++) {
                for (held = 0; held <= 1; held++) {
                    break_class(tag, words[i], now, held);
                    torn_class();
                }
            }
        }
    }
}

static void torn(void) {
    torn_root();
    torn_handshake(CHECK);
    torn_handshake(LEAVE);
    torn_hold(MAKE);
    torn_hold(DETACH);
    fresh();
    memory[PHASE_AT] = BORVUKHAI_SWEEP + 1;
    expect("torn", "step", borvukhai_refusal(borvukhai_step(HEAP)), BORVUKHAI_TORN);
    expect("torn", "phase", borvukhai_phase(HEAP), BORVUKHAI_TORN);
    fresh();
    memory[TAG_AT] = BORVUKHAI_SEGMENT_CONDEMNED + 1;
    output[0] = MANY;
    expect("torn", "states", borvukhai_states(HEAP, output, STATES), BORVUKHAI_TORN);
    expect("torn", "states keeps the output", output[0], MANY);
    memset(sheet, 0x5a, sizeof sheet);
    expect("torn", "sheet", borvukhai_sheet(HEAP, sheet, SHEET), BORVUKHAI_TORN);
    expect("torn", "sheet keeps the output", untouched(sheet, sizeof sheet), 1);
}

/* The lengths of a count and a size, and the header's constants the same; that of the sheet knows no size. */
static void lengths_are(uint32_t n, uint32_t size, uint32_t words, uint32_t states, uint32_t bytes, uint32_t examined) {
    expect("lengths", "memory", borvukhai_length(n, size), words);
    expect("lengths", "output", borvukhai_states_length(n, size), states);
    expect("lengths", "sheet", borvukhai_sheet_length(n, size), bytes);
    expect("lengths", "scratch", borvukhai_scratch_length(n, size), examined);
    expect("lengths", "constant of the memory", BORVUKHAI_LENGTH(n, size), words);
    expect("lengths", "constant of the output", BORVUKHAI_STATES_LENGTH(n, size), states);
    expect("lengths", "constant of the sheet", BORVUKHAI_IS_SIZE(size) ? BORVUKHAI_SHEET_LENGTH(n) : 0, bytes);
    expect("lengths", "constant of the scratch", BORVUKHAI_SCRATCH_LENGTH(n, size), examined);
    expect("lengths", "a size", BORVUKHAI_IS_SIZE(size), size == 16 || size == 32);
}

/* The formulas of docs/LAYOUT.md, 0 for a count or a size that is none, and no length of both sizes. */
static void lengths(void) {
    static const uint32_t none[] = {0, 257, 258, 65536, 0x80000000u, MANY};
    static const uint32_t sizes[] = {0, 1, 15, 17, 31, 33, 64, 16384, 32768, 0x80000010u, MANY};
    uint32_t n, m, met = 0;
    size_t i;
    for (n = 1; n <= 256; n++) {
        lengths_are(n, kib, (kib == 32 ? 12568 : 6294) * n + 1053, 6 * n, 52 * n + (n - 1) / 60,
                    (kib == 32 ? 4352 : 2176) * n);
        expect("lengths", "records of the output", borvukhai_states_length(n, kib), BORVUKHAI_STATE_WORDS * n);
        for (m = 1; m <= 256; m++) {
            met += borvukhai_length(n, 16) == borvukhai_length(m, 32);
        }
        for (i = 0; i < sizeof sizes / sizeof sizes[0]; i++) {
            lengths_are(n, sizes[i], 0, 0, 0, 0);
        }
    }
    expect("lengths", "of both sizes", met, 0);
    for (i = 0; i < sizeof none / sizeof none[0]; i++) {
        lengths_are(none[i], kib, 0, 0, 0, 0);
        lengths_are(none[i], MANY, 0, 0, 0, 0);
    }
}

/* The look at the states says these six words of the segment. */
static void state(const char *who, uint32_t tag, uint32_t class_, uint32_t place, uint32_t mutator, uint32_t kept, uint32_t handed_out) {
    memset(output, 0x5a, sizeof output);
    ok("states", borvukhai_states(HEAP, output, STATES));
    expect("tag", who, output[BORVUKHAI_STATE_TAG], tag);
    expect("class", who, output[BORVUKHAI_STATE_CLASS], class_);
    expect("place", who, output[BORVUKHAI_STATE_PLACE], place);
    expect("mutator", who, output[BORVUKHAI_STATE_MUTATOR], mutator);
    expect("kept", who, output[BORVUKHAI_STATE_KEPT], kept);
    expect("handed out", who, output[BORVUKHAI_STATE_HANDED_OUT], handed_out);
    expect("beyond the output", who, output[STATES], 0x5a5a5a5au);
}

static void phase(uint32_t wanted) {
    expect("phase", "of", borvukhai_phase(HEAP), (uint64_t)wanted << 32);
}

/* One step does this and leads to this phase. */
static void step(const char *who, uint32_t kind, uint32_t then) {
    uint64_t answer = borvukhai_step(HEAP);
    expect("step", who, borvukhai_refusal(answer), BORVUKHAI_OK);
    expect("step", who, borvukhai_step_kind(answer), kind);
    phase(then);
}

/* A segment through its five states, and the phases of one cycle. */
static void states_and_phases(void) {
    fresh();
    state("free", BORVUKHAI_SEGMENT_FREE, 0, 0, 0, 0, 0);
    ok("detach", borvukhai_detach(HEAP, 0));
    ok("attach", borvukhai_attach(HEAP, 7));
    ok("make", borvukhai_make(HEAP, 7, 0, 1, VALUES));
    state("held", BORVUKHAI_SEGMENT_HELD, FOUR, 1, 7, 0, 1);
    ok("spawn", borvukhai_spawn(HEAP, 0, 7, 0));
    ok("detach", borvukhai_detach(HEAP, 7));
    state("part", BORVUKHAI_SEGMENT_PART, FOUR, 1, 0, 0, 1);
    ok("make", borvukhai_make(HEAP, 0, 1, 1, VALUES));
    ok("make", borvukhai_make(HEAP, 0, 1, 1, VALUES));
    ok("make", borvukhai_make(HEAP, 0, 1, 1, VALUES));
    state("full", BORVUKHAI_SEGMENT_FULL, FOUR, 4, 0, 0, 4);
    phase(BORVUKHAI_IDLE);
    ok("start", borvukhai_start(HEAP));
    state("condemned", BORVUKHAI_SEGMENT_CONDEMNED, FOUR, 4, 0, 0, 4);
    phase(BORVUKHAI_SYNC1);
    step("waiting", BORVUKHAI_STEP_WAITING, BORVUKHAI_SYNC1);
    ok("leave", borvukhai_leave(HEAP, 0));
    step("to sync 2", BORVUKHAI_STEP_MOVED, BORVUKHAI_SYNC2);
    step("to mark", BORVUKHAI_STEP_MOVED, BORVUKHAI_MARK);
    step("traced", BORVUKHAI_STEP_TRACED, BORVUKHAI_MARK);
    step("traced", BORVUKHAI_STEP_TRACED, BORVUKHAI_MARK);
    step("to sweep", BORVUKHAI_STEP_MOVED, BORVUKHAI_SWEEP);
    step("swept", BORVUKHAI_STEP_SWEPT, BORVUKHAI_SWEEP);
    state("part again", BORVUKHAI_SEGMENT_PART, FOUR, 0, 0, 2, 0);
    step("done", BORVUKHAI_STEP_DONE, BORVUKHAI_IDLE);
    step("idle", BORVUKHAI_STEP_IDLE, BORVUKHAI_IDLE);
}

/* A start with nothing full or part and no mutator: each phase has one step. */
static void cycle_over_nothing(void) {
    fresh();
    ok("detach", borvukhai_detach(HEAP, 0));
    ok("start", borvukhai_start(HEAP));
    phase(BORVUKHAI_SYNC1);
    expect("over nothing", "start again", borvukhai_start(HEAP), BORVUKHAI_NOT_NOW);
    step("to sync 2", BORVUKHAI_STEP_MOVED, BORVUKHAI_SYNC2);
    step("to mark", BORVUKHAI_STEP_MOVED, BORVUKHAI_MARK);
    step("to sweep", BORVUKHAI_STEP_MOVED, BORVUKHAI_SWEEP);
    step("done", BORVUKHAI_STEP_DONE, BORVUKHAI_IDLE);
    step("idle", BORVUKHAI_STEP_IDLE, BORVUKHAI_IDLE);
}

/* A handshake that waits for mutator 0, which then checks. */
static void handshake(uint32_t now, uint32_t then) {
    expect("waiting", "for", borvukhai_step_waiting(borvukhai_step(HEAP)), 1);
    step("waiting", BORVUKHAI_STEP_WAITING, now);
    ok("check", borvukhai_check(HEAP, 0));
    step("moved", BORVUKHAI_STEP_MOVED, then);
}

/* The same with one mutator inside, whose record is marked; it goes on with the segment that it holds. */
static void cycle_over_nothing_with_a_mutator(void) {
    fresh();
    ok("make", borvukhai_make(HEAP, 0, 0, 1, VALUES));
    ok("start", borvukhai_start(HEAP));
    handshake(BORVUKHAI_SYNC1, BORVUKHAI_SYNC2);
    handshake(BORVUKHAI_SYNC2, BORVUKHAI_MARK);
    step("traced", BORVUKHAI_STEP_TRACED, BORVUKHAI_MARK);
    step("to sweep", BORVUKHAI_STEP_MOVED, BORVUKHAI_SWEEP);
    ok("make", borvukhai_make(HEAP, 0, 1, 1, VALUES));
    step("done", BORVUKHAI_STEP_DONE, BORVUKHAI_IDLE);
    state("held", BORVUKHAI_SEGMENT_HELD, FOUR, 2, 0, 0, 2);
}

static void over_nothing(void) {
    cycle_over_nothing();
    cycle_over_nothing_with_a_mutator();
}

/* A make of a long record, class 13: 2,001 words. */
static void long_one(const char *who, uint32_t wanted) {
    expect("a long record", who, borvukhai_make(HEAP, 1, 0, 0, 2000), wanted);
}

/* A venue plays long chases after short ones. Three short records, class 5, are dead in the one segment, since their
 * mutator is gone; it is part, none is full, and a long record finds no room, before the cycle and in it, until the
 * segment is swept: its three blocks in use become free, none is left, and the segment is free for any class. */
static void long_after_short(void) {
    uint64_t answer;
    fresh();
    ok("make", borvukhai_make(HEAP, 0, 0, 1, 5));
    ok("make", borvukhai_make(HEAP, 0, 1, 1, 5));
    ok("make", borvukhai_make(HEAP, 0, 2, 1, 5));
    ok("detach", borvukhai_detach(HEAP, 0));
    ok("attach", borvukhai_attach(HEAP, 1));
    state("part", BORVUKHAI_SEGMENT_PART, 5, 3, 0, 0, 3);
    long_one("before the cycle", BORVUKHAI_NO_ROOM);
    ok("start", borvukhai_start(HEAP));
    state("condemned", BORVUKHAI_SEGMENT_CONDEMNED, 5, 3, 0, 0, 3);
    ok("leave", borvukhai_leave(HEAP, 1));
    step("to sync 2", BORVUKHAI_STEP_MOVED, BORVUKHAI_SYNC2);
    step("to mark", BORVUKHAI_STEP_MOVED, BORVUKHAI_MARK);
    step("to sweep", BORVUKHAI_STEP_MOVED, BORVUKHAI_SWEEP);
    ok("enter", borvukhai_enter(HEAP, 1));
    long_one("before the sweep", BORVUKHAI_NO_ROOM);
    expect("a short record", "before the sweep", borvukhai_make(HEAP, 1, 0, 1, 5), BORVUKHAI_NO_ROOM);
    answer = borvukhai_step(HEAP);
    expect("swept", "kind", borvukhai_step_kind(answer), BORVUKHAI_STEP_SWEPT);
    expect("swept", "segment", borvukhai_step_segment(answer), 0);
    expect("swept", "freed", borvukhai_step_freed(answer), 3);
    state("free", BORVUKHAI_SEGMENT_FREE, 0, 0, 0, 0, 0);
    long_one("after the sweep", BORVUKHAI_OK);
    state("held", BORVUKHAI_SEGMENT_HELD, 13, 1, 1, 0, 1);
    step("done", BORVUKHAI_STEP_DONE, BORVUKHAI_IDLE);
}

/* The answers that carry a result: get, same, shape and a sweep's step. */
static void results(void) {
    uint64_t answer;
    full();
    ok("put", borvukhai_put(HEAP, 0, 2, VALUES - 1, MANY));
    expect("get", "a large value", borvukhai_result(borvukhai_get(HEAP, 0, 2, VALUES - 1)), MANY);
    expect("same", "two records", borvukhai_same(HEAP, 0, 0, 1), 0);
    expect("same", "one record", borvukhai_result(borvukhai_same(HEAP, 0, 1, 1)), 1);
    expect("same", "nil and nil", borvukhai_result(borvukhai_same(HEAP, 0, 14, 15)), 1);
    answer = borvukhai_shape(HEAP, 0, 3);
    expect("shape", "pointers", borvukhai_pointers(answer), 1);
    expect("shape", "values", borvukhai_values(answer), VALUES);
    ok("clear", borvukhai_clear(HEAP, 0, 0));
    ok("start", borvukhai_start(HEAP));
    expect("step", "waiting for", borvukhai_step_waiting(borvukhai_step(HEAP)), 1);
    ok("leave", borvukhai_leave(HEAP, 0));
    do {
        answer = borvukhai_step(HEAP);
    } while (borvukhai_step_kind(answer) == BORVUKHAI_STEP_MOVED || borvukhai_step_kind(answer) == BORVUKHAI_STEP_TRACED);
    expect("step", "swept", borvukhai_step_kind(answer), BORVUKHAI_STEP_SWEPT);
    expect("step", "segment", borvukhai_step_segment(answer), 0);
    expect("step", "freed", borvukhai_step_freed(answer), 1);
}

/* The examination answers so, and leaves the scratch all 0. */
static void examined(const char *who, uint32_t wanted) {
    uint64_t answer;
    size_t i;
    unsigned long used = 0;
    memset(scratch, 0x5a, sizeof scratch);
    memcpy(before, memory, sizeof memory);
    answer = borvukhai_examine(HEAP, scratch, SCRATCH);
    expect("examine", who, borvukhai_refusal(answer), BORVUKHAI_OK);
    expect("examine", who, borvukhai_result(answer), wanted);
    for (i = 0; i < SCRATCH; i++) {
        used += scratch[i] != 0;
    }
    expect("scratch not 0", who, used, 0);
    expect("beyond the scratch", who, scratch[SCRATCH], 0x5a5a5a5au);
    expect("examine keeps the memory", who, memcmp(before, memory, sizeof memory) == 0, 1);
}

static void examination(void) {
    fresh();
    examined("an opened heap", 1);
    full();
    examined("a full heap", 1);
    ok("start", borvukhai_start(HEAP));
    examined("a cycle", 1);
    memory[TRACE_COUNT_AT] = 1;
    examined("a trace stack of nothing", 0);
    full();
    memory[ROOT_AT]++;
    examined("a root inside a block", 0);
    memset(memory, 0xff, sizeof memory);
    examined("all ones", 0);
}

/* The one segment part, place 3, with records of class 5 whose mutator is gone, in this phase; mutator 0 is inside. */
static void part_in(uint32_t now) {
    uint32_t root, moved;
    fresh();
    for (root = 0; root < 3; root++) {
        ok("make", borvukhai_make(HEAP, 0, root, 1, 5));
    }
    ok("detach", borvukhai_detach(HEAP, 0));
    ok("attach", borvukhai_attach(HEAP, 0));
    if (now != BORVUKHAI_IDLE) {
        ok("start", borvukhai_start(HEAP));
        ok("leave", borvukhai_leave(HEAP, 0));
    }
    for (moved = BORVUKHAI_SYNC1; moved < now; moved++) {
        step("moved", BORVUKHAI_STEP_MOVED, moved + 1);
    }
    if (now != BORVUKHAI_IDLE) {
        ok("enter", borvukhai_enter(HEAP, 0));
    }
    examined("a part segment", 1);
}

/* One word of the memory is another number: the examination says no, and every call ends as it may. */
static void torn_word(const char *who, uint32_t at, uint32_t number) {
    memory[at] = number;
    examined(who, 0);
    memcpy(before, memory, LENT);
    torn_class();
}

/* The condemned segment's place is past its blocks, 512 at 16 KiB and 1,024 at 32; it is on its class's part stack, or
 * on the free stack, where its entry still stands; block 3, or the last, which is not in use, has a mark. */
static void torn_condemned(void) {
    const uint32_t all = kib == 32 ? 1024 : 512, places[] = {all + 1, 2 * all, 4 * all + 1, 0x80000000u, MANY};
    uint32_t now;
    size_t i;
    for (now = BORVUKHAI_SYNC1; now <= BORVUKHAI_SWEEP; now++) {
        for (i = 0; i < sizeof places / sizeof places[0]; i++) {
            part_in(now);
            torn_word("a place past the blocks", TAG_AT + BORVUKHAI_STATE_PLACE, places[i]);
        }
        part_in(now);
        torn_word("condemned, on a part stack", PARTS_AT + (1 + SEGMENTS) * 2, 1);
        part_in(now);
        torn_word("condemned, on the free stack", FREE_AT, 1);
        part_in(now);
        torn_word("a mark of block 3", MARKS_AT, 1u << 12);
        part_in(now);
        torn_word("a mark of the last block", MARKS_AT + 4 * all / 32 - 1, 1u << 28);
    }
}

/* The count of a part stack is another number: a start makes all of them 0, and what it leaves passes. */
static void torn_part_stacks(void) {
    static const uint32_t numbers[] = {0, 1, 2, 3, 0x80000000u, MANY};
    uint32_t c;
    size_t i;
    for (c = 0; c < CLASSES; c++) {
        for (i = 0; i < sizeof numbers / sizeof numbers[0]; i++) {
            part_in(BORVUKHAI_IDLE);
            memory[PARTS_AT + (1 + SEGMENTS) * c] = numbers[i];
            examined("a part stack's count", numbers[i] == (c == 2));
            ok("start", borvukhai_start(HEAP));
            state("condemned", BORVUKHAI_SEGMENT_CONDEMNED, 5, 3, 0, 0, 3);
            examined("after the start", 1);
        }
    }
}

int main(void) {
    static const struct {
        const char *name;
        void (*run)(void);
    } parts[] = {{"1 size", size},         {"2 script", script},        {"3 taken", taken},
                 {"4 absent", absent},     {"5 side", side},            {"6 slot", slot},
                 {"7 dark", dark},         {"8 field", field},          {"9 too big", too_big},
                 {"10 no room", no_room},  {"11 not now", not_now},     {"13 torn", torn},
                 {"13 torn classes", torn_classes},
                 {"lengths", lengths},     {"results", results},        {"states and phases", states_and_phases},
                 {"examination", examination},                          {"over nothing", over_nothing},
                 {"long records after short ones", long_after_short},
                 {"13 torn condemned segments", torn_condemned},
                 {"torn counts of part stacks", torn_part_stacks}};
    size_t i;
    for (kib = 16; kib <= 32; kib += 16) {
        for (i = 0; i < sizeof parts / sizeof parts[0]; i++) {
            int failed = failures;
            int tried = checks;
            parts[i].run();
            printf("%u KiB, %s: %d checks, %d failed\n", (unsigned)kib, parts[i].name, checks - tried,
                   failures - failed);
        }
    }
    printf("%d checks, %d failed\n", checks, failures);
    return failures == 0 ? 0 : 1;
}
