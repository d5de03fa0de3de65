/* Plays the changeover of docs/CHANGEOVER.md through the C interface, in memory of two segments. Each call stands beside its line of
 * docs/changeover.txt; line and reply are printed, and a reply that is not the expected one makes the program fail. */
#include "borvukhai.h"

#include <stdio.h>
#include <string.h>

#define SEGMENTS 2u
#define KIB 16u /* that of the bracket program */
#define WORDS BORVUKHAI_LENGTH(SEGMENTS, KIB)

static uint32_t memory[WORDS];
#define HEAP SEGMENTS, KIB, memory, WORDS /* the first four arguments of every call */

static int lines;
static int failures;

/* A line, its reply and the reply that was to come. */
static void say(const char *line, const char *reply, const char *expected) {
    lines++;
    printf("%s -> %s\n", line, reply);
    if (strcmp(reply, expected) != 0) {
        fprintf(stderr, "line %d: %s was to answer %s, not %s\n", lines, line, expected, reply);
        failures++;
    }
}

/* A call that answers 0 or a refusal. */
static void plain(const char *line, uint32_t answer, const char *expected) {
    char reply[32] = "(ok)";
    if (answer != BORVUKHAI_OK) {
        snprintf(reply, sizeof reply, "(no %u)", (unsigned)answer);
    }
    say(line, reply, expected);
}

/* get: a value above a refusal. */
static void value(const char *line, uint64_t answer, const char *expected) {
    char reply[32];
    if (borvukhai_refusal(answer) != BORVUKHAI_OK) {
        plain(line, borvukhai_refusal(answer), expected);
        return;
    }
    snprintf(reply, sizeof reply, "(ok %u)", (unsigned)borvukhai_result(answer));
    say(line, reply, expected);
}

/* shape: two counts above a refusal. */
static void shape(const char *line, uint64_t answer, const char *expected) {
    char reply[32];
    if (borvukhai_refusal(answer) != BORVUKHAI_OK) {
        plain(line, borvukhai_refusal(answer), expected);
        return;
    }
    snprintf(reply, sizeof reply, "(ok %u %u)", (unsigned)borvukhai_pointers(answer), (unsigned)borvukhai_values(answer));
    say(line, reply, expected);
}

/* The words of a step that takes no number. */
static const char *step_word(uint32_t kind) {
    switch (kind) {
    case BORVUKHAI_STEP_IDLE:
        return "(idle)";
    case BORVUKHAI_STEP_MOVED:
        return "(moved)";
    case BORVUKHAI_STEP_TRACED:
        return "(traced)";
    case BORVUKHAI_STEP_DONE:
        return "(done)";
    default:
        return "(unknown)";
    }
}

/* One step of the collector. */
static void step(const char *expected) {
    const char *line = "(step)";
    uint64_t answer = borvukhai_step(HEAP);
    char reply[32];
    if (borvukhai_refusal(answer) != BORVUKHAI_OK) {
        plain(line, borvukhai_refusal(answer), expected);
        return;
    }
    switch (borvukhai_step_kind(answer)) {
    case BORVUKHAI_STEP_WAITING:
        snprintf(reply, sizeof reply, "(waiting %u)", (unsigned)borvukhai_step_waiting(answer));
        break;
    case BORVUKHAI_STEP_SWEPT:
        snprintf(reply, sizeof reply, "(swept %u %u)", (unsigned)borvukhai_step_segment(answer), (unsigned)borvukhai_step_freed(answer));
        break;
    default:
        snprintf(reply, sizeof reply, "%s", step_word(borvukhai_step_kind(answer)));
        break;
    }
    say(line, reply, expected);
}

/* Lines 1 to 13: four records fill segment 0. A, in root 0 of mutator 0, has the only pointer to K, and mutator 1 has A too. */
static void build(void) {
    plain("(rack 2)", borvukhai_open(HEAP), "(ok)");
    plain("(attach 0)", borvukhai_attach(HEAP, 0), "(ok)");
    plain("(attach 2)", borvukhai_attach(HEAP, 2), "(ok)");
    plain("(make (0 0) (1 600))", borvukhai_make(HEAP, 0, 0, 1, 600), "(ok)");
    plain("(make (0 1) (1 600))", borvukhai_make(HEAP, 0, 1, 1, 600), "(ok)");
    plain("(make (0 2) (1 600))", borvukhai_make(HEAP, 0, 2, 1, 600), "(ok)");
    plain("(make (0 3) (1 600))", borvukhai_make(HEAP, 0, 3, 1, 600), "(ok)");
    plain("(put (0 1 0) 77)", borvukhai_put(HEAP, 0, 1, 0, 77), "(ok)");
    plain("(store (0 0 0) 1)", borvukhai_store(HEAP, 0, 0, 0, 1), "(ok)");
    plain("(spawn 1 (0 0))", borvukhai_spawn(HEAP, 1, 0, 0), "(ok)");
    plain("(clear (0 1))", borvukhai_clear(HEAP, 0, 1), "(ok)");
    plain("(clear (0 2))", borvukhai_clear(HEAP, 0, 2), "(ok)");
    plain("(clear (0 3))", borvukhai_clear(HEAP, 0, 3), "(ok)");
}

/* Lines 14 to 30: a cycle. Mutator 1 loads K after its roots were entered, and mutator 0 removes the last pointer to K: the write
 * barrier enters the old value, so that two blocks become free and not three. */
static void first_cycle(void) {
    plain("(start)", borvukhai_start(HEAP), "(ok)");
    step("(waiting 3)");
    plain("(check 0)", borvukhai_check(HEAP, 0), "(ok)");
    plain("(check 1)", borvukhai_check(HEAP, 1), "(ok)");
    plain("(leave 2)", borvukhai_leave(HEAP, 2), "(ok)");
    step("(moved)");
    plain("(check 1)", borvukhai_check(HEAP, 1), "(ok)");
    step("(waiting 1)");
    plain("(load (1 1) (1 0 0))", borvukhai_load(HEAP, 1, 1, 0, 0), "(ok)");
    plain("(store (0 0 0) 15)", borvukhai_store(HEAP, 0, 0, 0, 15), "(ok)");
    plain("(check 0)", borvukhai_check(HEAP, 0), "(ok)");
    step("(moved)");
    step("(traced)");
    step("(traced)");
    step("(moved)");
    step("(swept 0 2)");
    step("(done)");
}

/* Lines 31 to 38: mutator 2 gets the two free blocks and writes there; K still has its value. */
static void use_free_blocks(void) {
    plain("(enter 2)", borvukhai_enter(HEAP, 2), "(ok)");
    plain("(make (2 0) (1 600))", borvukhai_make(HEAP, 2, 0, 1, 600), "(ok)");
    plain("(make (2 1) (1 600))", borvukhai_make(HEAP, 2, 1, 1, 600), "(ok)");
    plain("(put (2 0 0) 1)", borvukhai_put(HEAP, 2, 0, 0, 1), "(ok)");
    plain("(put (2 1 0) 2)", borvukhai_put(HEAP, 2, 1, 0, 2), "(ok)");
    value("(get (1 1 0))", borvukhai_get(HEAP, 1, 1, 0), "(ok 77)");
    plain("(load (0 1) (0 0 0))", borvukhai_load(HEAP, 0, 1, 0, 0), "(ok)");
    shape("(shape (0 1))", borvukhai_shape(HEAP, 0, 1), "(no 7)");
}

/* Lines 39 to 51: mutator 1 lets K go, and a cycle with every mutator outside takes its block back. */
static void second_cycle(void) {
    plain("(clear (1 1))", borvukhai_clear(HEAP, 1, 1), "(ok)");
    plain("(start)", borvukhai_start(HEAP), "(ok)");
    plain("(leave 0)", borvukhai_leave(HEAP, 0), "(ok)");
    plain("(leave 1)", borvukhai_leave(HEAP, 1), "(ok)");
    plain("(leave 2)", borvukhai_leave(HEAP, 2), "(ok)");
    step("(moved)");
    step("(moved)");
    step("(traced)");
    step("(traced)");
    step("(traced)");
    step("(moved)");
    step("(swept 0 1)");
    step("(done)");
}

int main(void) {
    if (borvukhai_length(SEGMENTS, KIB) != WORDS) {
        fprintf(stderr, "the library asks for %lu words\n", (unsigned long)borvukhai_length(SEGMENTS, KIB));
        return 1;
    }
    build();
    first_cycle();
    use_free_blocks();
    second_cycle();
    return failures == 0 ? 0 : 1;
}
