/* The churn workload on Boehm's collector. A record is its pointers, of 8 bytes, and then the header and the values, of 4
 * bytes each: 16 bytes for 1 + 1, 104 for 8 + 8. The heap may grow to so many bytes as the other side is lent. */
#define GC_THREADS /* declares GC_set_markers_count: one core marks, as on the other side */
#include <gc.h>

#include "churn.h"

static void *head;        /* reaches the live set */
static void **recent[12]; /* as the roots of the other side */

static void **make(const struct churn *c) {
    size_t bytes = 8 * c->pointers + (4 * (1 + c->values) + 7) / 8 * 8;
    void **record = GC_MALLOC(bytes);
    if (record == NULL) {
        fprintf(stderr, "boehm: out of memory\n");
        exit(1);
    }
    *(uint32_t *)(record + c->pointers) = c->pointers << 16 | c->values;
    return record;
}

static uint32_t below(uint64_t *state, uint32_t bound) {
    *state ^= *state << 13;
    *state ^= *state >> 7;
    *state ^= *state << 17;
    return (uint32_t)((*state >> 32) * bound >> 32);
}

static void build_live(const struct churn *c) {
    uint64_t random = 88172645463325252u;
    for (uint32_t i = 0; i < c->live; i++) {
        void **record = make(c);
        record[0] = head;
        for (uint32_t field = 1; field < c->pointers; field++) record[field] = recent[below(&random, 12)];
        recent[below(&random, 12)] = record;
        head = record;
        if (i % 4 < 3) make(c);
    }
    memset(recent, 0, sizeof recent);
    GC_gcollect();
}

static void churn(struct churn *c, const char *path) {
    uint64_t begin = now_working();
    for (uint32_t i = 0; i < c->makes; i++) TIMED(c, recent[i % 8] = make(c));
    if (path == NULL) churn_report_total(c, begin);
    else churn_report_calls(c, path);
}

/* Makes alone: so many dead records as the heap has blocks, collected, then as many again while no collection may start. */
static void fill(const struct churn *c) {
    uint32_t blocks = c->makes / 2;
    for (uint32_t i = 0; i < blocks; i++) recent[i % 8] = make(c);
    memset(recent, 0, sizeof recent);
    GC_gcollect();
    GC_disable();
    uint64_t begin = now_working();
    for (uint32_t i = 0; i < blocks; i++) recent[i % 8] = make(c);
    printf("%.3f\n", (double)(now_working() - begin) / blocks);
}

static uint32_t live_records(void) {
    uint32_t count = 0;
    for (void **record = head; record != NULL; record = record[0]) count++;
    return count;
}

int main(int argc, char **argv) {
    struct churn c = churn_read(argc, argv);
    GC_set_all_interior_pointers(0);
    GC_set_max_heap_size(((size_t)c.segments * 6294 + 1053) * 4);
    GC_set_markers_count(1);
    GC_INIT();
    if (getenv("BENCH_INCREMENTAL") != NULL) GC_enable_incremental();
    if (strcmp(argv[4], "fill") == 0) return fill(&c), 0;
    build_live(&c);
    GC_word before = GC_get_gc_no();
    churn(&c, argc > 5 ? argv[5] : NULL);
    if (live_records() != c.live || GC_get_gc_no() == before) return fprintf(stderr, "boehm: a live record is lost, or none was collected\n"), 1;
    return 0;
}
