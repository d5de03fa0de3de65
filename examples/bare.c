/* A program without a C library: static memory, a main loop, and an interrupt that leaves its wish to that loop, as no
 * call may run while another runs. It keeps the last EVENTS events as a list of records; the collector takes one step
 * after each event. Of a C library the heap wants memset alone. It ends with 0 where every event was found again as it
 * was put, for tests; a board goes on for ever. bindings/port/test runs it on boards, bindings/c/test on a host. */
#include "borvukhai.h"

#define SEGMENTS 2u
#define KIB 16u /* the size of a segment */
#define HEAP SEGMENTS, KIB, memory, BORVUKHAI_LENGTH(SEGMENTS, KIB) /* the first four arguments of every call */
static uint32_t memory[BORVUKHAI_LENGTH(SEGMENTS, KIB)];

enum { LOOP = 0 };                     /* the one mutator: the main loop */
enum { FIRST = 0, LAST = 1, NEW = 2 }; /* its roots */
enum { NEXT = 0, NUMBER = 0 };         /* the pointer and the value of an event's record */
enum { EVENTS = 16, TURNS = 100000 };

/* What the interrupt leaves. */
static volatile uint32_t pressed;
static void interrupt(void) { pressed = pressed + 1; }

/* A new event at the list's end. */
static uint32_t append(uint32_t number) {
    uint32_t refused = borvukhai_make(HEAP, LOOP, NEW, 1, 1);
    refused = refused ? refused : borvukhai_put(HEAP, LOOP, NEW, NUMBER, number);
    if (refused == BORVUKHAI_OK) {
        refused = number == 1 ? borvukhai_copy(HEAP, LOOP, FIRST, NEW) : borvukhai_store(HEAP, LOOP, LAST, NEXT, NEW);
    }
    return refused ? refused : borvukhai_copy(HEAP, LOOP, LAST, NEW);
}

/* The oldest event leaves the list; it must be the one that was put there. */
static uint32_t forget(uint32_t number) {
    uint32_t value, refused = borvukhai_get_to(HEAP, LOOP, FIRST, NUMBER, &value);
    if (refused != BORVUKHAI_OK || value != number) {
        return refused ? refused : (uint32_t)BORVUKHAI_TORN;
    }
    return borvukhai_load(HEAP, LOOP, FIRST, FIRST, NEXT);
}

/* A cycle begins whenever half a segment of these records was made. After each event the loop acknowledges, and the
 * collector does one step. */
static uint32_t collect(uint32_t number) {
    struct borvukhai_stepped stepped;
    uint32_t often = BORVUKHAI_BLOCKS(KIB, BORVUKHAI_CLASS_OF(1 + 1)) / 2;
    uint32_t refused = number % often == 0 ? borvukhai_start(HEAP) : (uint32_t)BORVUKHAI_OK;
    refused = refused ? refused : borvukhai_check(HEAP, LOOP);
    return refused ? refused : borvukhai_step_to(HEAP, &stepped);
}

static uint32_t turn(uint32_t number) {
    uint32_t refused = append(number);
    refused = refused ? refused : number > EVENTS ? forget(number - EVENTS) : (uint32_t)BORVUKHAI_OK;
    return refused ? refused : collect(number);
}

int main(void) {
    uint32_t seen = 0, refused = borvukhai_open(HEAP);
    refused = refused ? refused : borvukhai_attach(HEAP, LOOP);
    while (refused == BORVUKHAI_OK && seen < TURNS) {
        interrupt(); /* on a board the hardware calls it, at any time */
        while (refused == BORVUKHAI_OK && seen != pressed) {
            refused = turn(++seen);
        }
    }
    return (int)refused;
}
