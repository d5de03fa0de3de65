/* Memory that outlives the program: saved in the middle of a cycle, loaded by another run, examined, and used on.
 *   restart save FILE   fills a heap, and saves it while a cycle marks
 *   restart load FILE   takes it up: the list is as it was, the cycle goes on, and so does the program
 * Nothing is kept beside the lent slice: which events the list has is read from the list. A file of another layout,
 * count or size, and one whose words fail the examination, are refused; then a program opens its heap anew. */
#include "pacer.h"

#include <stdio.h>
#include <string.h>

#define SEGMENTS 4u
#define KIB 16u /* the size of a segment */
#define WORDS BORVUKHAI_LENGTH(SEGMENTS, KIB)
#define SCRATCH BORVUKHAI_SCRATCH_LENGTH(SEGMENTS, KIB)
#define HEAP SEGMENTS, KIB, memory, WORDS
static uint32_t memory[WORDS], scratch[SCRATCH], output[BORVUKHAI_STATES_LENGTH(SEGMENTS, KIB)];

enum { ID = 0 };                                 /* the mutator */
enum { FIRST = 0, LAST = 1, NEW = 2, WALK = 3 }; /* its roots: the list's ends, and two to work with */
enum { LIST = 1500, TURNS = 200000 };

static struct pacer pacer;

/* What stands before the words in the file: memory of another layout has other words. */
struct head {
    uint32_t layout, segments, kib;
};

static int fail(const char *what) {
    fprintf(stderr, "%s\n", what);
    return 0;
}

/* An event at the list's end: a pointer to the next, and its number. */
static uint32_t append(uint32_t number, int first) {
    uint32_t refused = borvukhai_make(HEAP, ID, NEW, 1, 1);
    refused = refused ? refused : borvukhai_put(HEAP, ID, NEW, 0, number);
    if (refused == BORVUKHAI_OK) {
        refused = first ? borvukhai_copy(HEAP, ID, FIRST, NEW) : borvukhai_store(HEAP, ID, LAST, 0, NEW);
    }
    refused = refused ? refused : borvukhai_copy(HEAP, ID, LAST, NEW);
    refused = refused ? refused : borvukhai_check(HEAP, ID);
    return refused ? refused : pacer_made(&pacer, 2);
}

/* One event more and one less; the numbers follow from the list. */
static uint32_t turn(void) {
    uint32_t last, refused = borvukhai_get_to(HEAP, ID, LAST, 0, &last);
    refused = refused ? refused : append(last + 1, 0);
    return refused ? refused : borvukhai_load(HEAP, ID, FIRST, FIRST, 0);
}

/* The list has LIST events, each one more than the one before. */
static int walk(void) {
    uint32_t number, before = 0, count = 0;
    borvukhai_copy(HEAP, ID, WALK, FIRST);
    while (borvukhai_get_to(HEAP, ID, WALK, 0, &number) == BORVUKHAI_OK) {
        if (count++ != 0 && number != before + 1) {
            return fail("an event is lost");
        }
        before = number;
        borvukhai_load(HEAP, ID, WALK, WALK, 0);
    }
    printf("%u events, up to number %u\n", (unsigned)count, (unsigned)before);
    return count == LIST ? 1 : fail("the list has another length");
}

static int in_phase(uint32_t wanted) {
    uint32_t phase;
    return borvukhai_phase_to(HEAP, &phase) == BORVUKHAI_OK && phase == wanted;
}

/* Turns until so many were done and the phase is this one. */
static int run_to(uint32_t turns, uint32_t phase) {
    uint32_t refused = BORVUKHAI_OK;
    while (refused == BORVUKHAI_OK && (turns > 0 || !in_phase(phase))) {
        refused = turn();
        turns -= turns > 0;
    }
    return refused == BORVUKHAI_OK ? 1 : fail(borvukhai_refusal_text(refused));
}

static int fill(void) {
    uint32_t number, refused = borvukhai_open(HEAP);
    refused = refused ? refused : borvukhai_attach(HEAP, ID);
    refused = refused ? refused : pacer_of(&pacer, SEGMENTS, KIB, memory, output, 8, 1);
    for (number = 0; refused == BORVUKHAI_OK && number < LIST; number++) {
        refused = append(number, number == 0);
    }
    return refused == BORVUKHAI_OK ? 1 : fail(borvukhai_refusal_text(refused));
}

static int save(const char *path) {
    struct head head = {BORVUKHAI_LAYOUT, SEGMENTS, KIB};
    FILE *file = fopen(path, "wb");
    int well = file != NULL && fwrite(&head, sizeof head, 1, file) == 1 && fwrite(memory, sizeof memory, 1, file) == 1;
    return (file == NULL || fclose(file) == 0) && well ? 1 : fail("the file cannot be written");
}

static int load(const char *path) {
    struct head head = {0, 0, 0};
    FILE *file = fopen(path, "rb");
    int read = file != NULL && fread(&head, sizeof head, 1, file) == 1 && fread(memory, sizeof memory, 1, file) == 1;
    if (file != NULL) {
        fclose(file);
    }
    if (!read || head.layout != BORVUKHAI_LAYOUT || head.segments != SEGMENTS || head.kib != KIB) {
        return fail("no file of this layout, count and size: open a heap anew");
    }
    if (!borvukhai_is_sound(HEAP, scratch, SCRATCH)) {
        return fail("the memory is torn: open a heap anew");
    }
    return pacer_of(&pacer, SEGMENTS, KIB, memory, output, 8, 1) == BORVUKHAI_OK;
}

int main(int count, char **words) {
    if (count == 3 && strcmp(words[1], "save") == 0) {
        return fill() && run_to(TURNS, BORVUKHAI_MARK) && walk() && save(words[2]) ? 0 : 1;
    }
    if (count == 3 && strcmp(words[1], "load") == 0) {
        return load(words[2]) && in_phase(BORVUKHAI_MARK) && walk() && run_to(TURNS, BORVUKHAI_IDLE) && walk() ? 0 : 1;
    }
    fprintf(stderr, "restart save FILE, then restart load FILE\n");
    return 2;
}
