/* The heap on paper: its sheet before a cycle, after the start, and after the end, with what was found dead gone. Two
 * mutators made records of several lengths, and one of them has left for good. The sheet has no NUL at its end: it is
 * printed by its length. */
#include "borvukhai.h"

#include <stdio.h>

#define SEGMENTS 6u
#ifndef KIB
#define KIB 16u /* the size of a segment; -DKIB=32u for the other */
#endif
#define HEAP SEGMENTS, KIB, memory, BORVUKHAI_LENGTH(SEGMENTS, KIB) /* the first four arguments of every call */
static uint32_t memory[BORVUKHAI_LENGTH(SEGMENTS, KIB)];
static uint8_t sheet[BORVUKHAI_SHEET_LENGTH(SEGMENTS)];

static uint32_t print(const char *when) {
    uint32_t refused = borvukhai_sheet(HEAP, sheet, sizeof sheet);
    if (refused == BORVUKHAI_OK) {
        printf("%s:\n", when);
        fwrite(sheet, 1, sizeof sheet, stdout);
    }
    return refused;
}

/* So many records of so many values; the last 16 stay in the roots. */
static uint32_t makes(uint32_t mutator, uint32_t count, uint32_t values) {
    uint32_t refused = BORVUKHAI_OK;
    while (refused == BORVUKHAI_OK && count-- != 0) {
        refused = borvukhai_make(HEAP, mutator, count % 16, 0, values);
    }
    return refused;
}

/* A segment of long records by mutator 0 and eight more, so that eight of the full segment stay; and short ones by
 * mutator 1, which then goes. */
static uint32_t play(void) {
    uint32_t refused = borvukhai_open(HEAP);
    refused = refused ? refused : borvukhai_attach(HEAP, 0);
    refused = refused ? refused : borvukhai_attach(HEAP, 1);
    refused = refused ? refused : makes(0, BORVUKHAI_BLOCKS(KIB, BORVUKHAI_CLASS_OF(100)) + 8, 100);
    refused = refused ? refused : makes(1, 700, 1);
    refused = refused ? refused : makes(1, 200, 6);
    return refused ? refused : borvukhai_detach(HEAP, 1);
}

/* A cycle to its end, mutator 0 outside meanwhile. */
static uint32_t collect(void) {
    struct borvukhai_stepped stepped = {0, 0, 0, 0};
    uint32_t refused = borvukhai_leave(HEAP, 0);
    while (refused == BORVUKHAI_OK && stepped.kind != BORVUKHAI_STEP_DONE) {
        refused = borvukhai_step_to(HEAP, &stepped);
    }
    return refused;
}

int main(void) {
    uint32_t refused = play();
    refused = refused ? refused : print("before the cycle");
    refused = refused ? refused : borvukhai_start(HEAP);
    refused = refused ? refused : print("after its start");
    refused = refused ? refused : collect();
    refused = refused ? refused : print("after its end");
    if (refused != BORVUKHAI_OK) {
        fprintf(stderr, "%s\n", borvukhai_refusal_text(refused));
    }
    return refused == BORVUKHAI_OK ? 0 : 1;
}
