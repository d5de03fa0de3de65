/* Instructions of whole cycles, from start to done with one mutator, at 1, 64 and 256 segments. All of them full: dead
 * heaps, heaps of which half is live, live ones; all of them part, half of their blocks in use: half live and dead.
 * The rows are dumps of callgrind's; prints the live records of each row. */
#include "build.h"
#include "count.h"

/* The counted part: start, step and the mutator's checks. Answers how many records were marked. */
PROBE u32 probe_cycle(struct heap *h) {
    u32 traced = 0, kind;
    if (HEAP(start)(OVER(h)) != 0) return UINT32_MAX;
    do {
        kind = borvukhai_step_kind(HEAP(step)(OVER(h)));
        if (kind == BORVUKHAI_STEP_WAITING) HEAP(check)(OVER(h), 0);
        if (kind == BORVUKHAI_STEP_TRACED) traced++;
    } while (kind != BORVUKHAI_STEP_DONE && kind != BORVUKHAI_STEP_IDLE);
    return traced;
}

static void rows_cycle(u32 segments) {
    struct heap h = heap_with_mutator(segments);
    MUST(build_dead(&h, 0, 1), BORVUKHAI_BLOCKS(h.kib, 3) * segments);
    ROW(probe_cycle(&h), 0, "cycle, %u segments, dead, class 3", segments);
    heap_reopen(&h);
    MUST(build_dead(&h, 1, 1), BORVUKHAI_BLOCKS(h.kib, 4) * segments);
    ROW(probe_cycle(&h), 0, "cycle, %u segments, dead, class 4", segments);
    for (u32 dead = 0; dead < 2; dead++) {
        heap_reopen(&h);
        u32 live = build_graph(&h, dead);
        ROW(probe_cycle(&h), live, "cycle, %u segments, %s", segments, dead ? "half live" : "live");
        printf("live records: cycle, %u segments, %s%s\t%u\n", segments, dead ? "half live" : "live", AT_SIZE, live);
    }
    heap_close(&h);
}

/* Segments that are half empty: half of their records live, so that they are swept to part; then none, so that they
 * are swept to free. */
static void rows_parts(u32 segments) {
    struct heap h = heap_with_mutator(segments);
    u32 live = build_two_graphs(&h);
    MUST(HEAP(clear)(OVER(&h), 0, 1), 0);
    ROW(probe_cycle(&h), live, "cycle, %u segments, half empty, half live", segments);
    printf("live records: cycle, %u segments, half empty, half live\t%u\n", segments, live);
    MUST(HEAP(clear)(OVER(&h), 0, 0), 0);
    ROW(probe_cycle(&h), 0, "cycle, %u segments, half empty, dead", segments);
    heap_close(&h);
}

int main(void) {
    for (u32 segments = 1; segments <= 256; segments = segments == 1 ? 64 : segments * 4) {
        rows_cycle(segments);
        rows_parts(segments);
    }
    return 0;
}
