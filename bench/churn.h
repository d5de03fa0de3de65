/* The churn workload, of which churn.c is the heap's side and boehm.c Boehm's: a live set of half of the heap's blocks,
 * and then short-lived records of the same shape, the last eight of which are held. A dead record is made after three
 * of four live ones, so an eighth of the segments is free of live ones. With one after each of them no segment would
 * ever be free; a start condemns the part ones too, so the makes would wait for the first sweep.
 * Either the whole is timed, or every single call; then the run is repeated, and a call's length is the least that it
 * took, which leaves out what else the machine did: every run makes the same calls. */
#ifndef BENCH_CHURN_H
#define BENCH_CHURN_H

#include <inttypes.h>
#include <stdint.h>
#include <stdio.h>
#include <stdlib.h>
#include <string.h>

#include "clock.h"

#define MOST_CALLS 8 /* for each record made: itself, and what the collector's side does for it on the average */

struct churn {
    uint32_t segments, pointers, values;
    uint32_t live;     /* records of the live set */
    uint32_t makes;    /* short-lived records, so many as twice the heap's blocks */
    uint32_t *lengths; /* of each call in ns; NULL where calls are not timed */
    uint32_t count;
};

/* Blocks of 2^c bytes that hold 1 + fields words, in segments of 16 KiB. */
static inline uint32_t blocks_of(uint32_t segments, uint32_t fields) {
    uint32_t bytes = 8;
    while (bytes < 4 * (1 + fields)) bytes *= 2;
    return segments * (16384 / bytes);
}

static inline struct churn churn_read(int argc, char **argv) {
    if (argc < 5) {
        fprintf(stderr, "usage: %s SEGMENTS POINTERS VALUES fill|total|each|nothing [FILE]\n", argv[0]);
        exit(2);
    }
    struct churn c = {(uint32_t)atoi(argv[1]), (uint32_t)atoi(argv[2]), (uint32_t)atoi(argv[3]), 0, 0, NULL, 0};
    uint32_t blocks = blocks_of(c.segments, c.pointers + c.values);
    c.live = blocks / 2;
    c.makes = 2 * blocks;
    if (argc > 5) c.lengths = calloc(MOST_CALLS * (size_t)c.makes, sizeof(uint32_t));
    return c;
}

static inline void churn_timed(struct churn *c, uint64_t begin) {
    uint64_t length = now() - begin;
    if (c->count >= MOST_CALLS * c->makes) abort();
    c->lengths[c->count++] = (uint32_t)length;
}
/* `statement`, timed where calls are. */
#define TIMED(c, statement)                          \
    do {                                             \
        uint64_t begin_ = (c)->lengths ? now() : 0;  \
        statement;                                   \
        if ((c)->lengths) churn_timed(c, begin_);    \
    } while (0)

/* The lengths that `path` has, where it is there, become the least of them and these. */
static inline void keep_least(const struct churn *c, const char *path) {
    uint32_t *old = malloc(c->count * sizeof(uint32_t));
    FILE *file = fopen(path, "rb");
    if (file != NULL) {
        if (fread(old, sizeof *old, c->count, file) != c->count) abort();
        for (uint32_t i = 0; i < c->count; i++) c->lengths[i] = old[i] < c->lengths[i] ? old[i] : c->lengths[i];
        fclose(file);
    }
    file = fopen(path, "wb");
    if (file == NULL || fwrite(c->lengths, sizeof *old, c->count, file) != c->count || fclose(file) != 0) {
        perror(path);
        exit(1);
    }
    free(old);
}

/* The longest call as seen in this run; the file keeps the least that each call took in any run. */
static inline void churn_report_calls(const struct churn *c, const char *path) {
    uint32_t longest = 0;
    for (uint32_t i = 0; i < c->count; i++) longest = c->lengths[i] > longest ? c->lengths[i] : longest;
    printf("%" PRIu32 "\n", longest);
    keep_least(c, path);
}

/* The time for each short-lived record with its share of the collector's work. */
static inline void churn_report_total(const struct churn *c, uint64_t begin) {
    printf("%.3f\n", (double)(now_working() - begin) / c->makes);
}

#endif
