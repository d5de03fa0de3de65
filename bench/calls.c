/* Instructions of single calls of the mutators and of start and step, each in a state in which it has one known piece of
 * work to do. Prints nothing: every row is a dump of callgrind's. */
#include "build.h"
#include "count.h"

/* The makes of one shape in an empty heap: the first takes a free segment, the second finds its block in the word of the
 * place, the 32nd takes the last bit of a word. */
static void rows_make(struct heap *h, u32 pointers, u32 values, const char *shape) {
    heap_reopen(h);
    ROW(probe_make(h, 0, 0, pointers, values), 0, "make %s, takes a free segment", shape);
    ROW(probe_make(h, 0, 0, pointers, values), 0, "make %s", shape);
    for (u32 i = 2; i < 31; i++) MUST(HEAP(make)(OVER(h), 0, 0, pointers, values), 0);
    ROW(probe_make(h, 0, 0, pointers, values), 0, "make %s, last bit of a word", shape);
}

/* Four segments filled: what a make costs on the average, with the words' ends and the segments taken. */
PROBE u32 probe_fill(struct heap *h, u32 pointers, u32 values) {
    u32 made = 0;
    while (HEAP(make)(OVER(h), 0, 0, pointers, values) == 0) made++;
    return made;
}

static void rows_fill(void) {
    struct heap h = heap_with_mutator(4);
    ROW(probe_fill(&h, 0, 1), 8192, "fill 0+1");
    heap_reopen(&h);
    ROW(probe_fill(&h, 1, 1), 4096, "fill 1+1");
    heap_reopen(&h);
    ROW(probe_fill(&h, 8, 8), 512, "fill 8+8");
    heap_close(&h);
}

static void rows_make_large(struct heap *h) {
    heap_reopen(h);
    MUST(HEAP(make)(OVER(h), 0, 0, 600, 400), 0);
    ROW(probe_make(h, 0, 0, 600, 400), 0, "make 600+400");
}

/* Records of values alone: in the segment that a first one has taken, where a block is left, and of the two classes whose
 * segments have two blocks and one. */
static void rows_make_values(struct heap *h) {
    const u32 few[3] = {31, 32, 1023}, two[2] = {1024, 2047}, one[2] = {2048, 4095};
    for (u32 i = 0; i < 3; i++) {
        heap_reopen(h);
        MUST(HEAP(make)(OVER(h), 0, 0, 0, few[i]), 0);
        ROW(probe_make(h, 0, 0, 0, few[i]), 0, "make 0+%u", few[i]);
    }
    for (u32 i = 0; i < 2; i++) {
        heap_reopen(h);
        ROW(probe_make(h, 0, 0, 0, two[i]), 0, "make 0+%u, takes a free segment", two[i]);
        ROW(probe_make(h, 0, 0, 0, two[i]), 0, "make 0+%u, segment becomes full", two[i]);
    }
    for (u32 i = 0; i < 2; i++) {
        heap_reopen(h);
        ROW(probe_make(h, 0, 0, 0, one[i]), 0, "make 0+%u, takes a free segment, full at once", one[i]);
    }
}

/* Roots 0 and 1 are records of 2 + 2, the first holds the second. */
static void rows_fields(struct heap *h) {
    heap_reopen(h);
    MUST(HEAP(make)(OVER(h), 0, 0, 2, 2), 0);
    MUST(HEAP(make)(OVER(h), 0, 1, 2, 2), 0);
    ROW(probe_store(h, 0, 0, 1, 1), 0, "store: nothing");
    ROW(probe_load(h, 0, 2, 0, 1), 0, "load");
    ROW(probe_load(h, 0, 3, 0, 0), 0, "load of nil");
    ROW(probe_put(h, 0, 0, 1, 77), 0, "put");
    ROW(probe_get(h, 0, 0, 1), RESULT(77), "get");
    ROW(probe_copy(h, 0, 4, 0), 0, "copy");
    ROW(probe_same(h, 0, 4, 0), RESULT(1), "same");
    ROW(probe_shape(h, 0, 0), RESULT(2 << 16 | 2), "shape");
    ROW(probe_clear(h, 0, 4), 0, "clear");
    MUST(HEAP(same)(OVER(h), 0, 1, 2), RESULT(1));
}

static void rows_mutators(struct heap *h) {
    heap_reopen(h);
    MUST(HEAP(make)(OVER(h), 0, 5, 1, 1), 0);
    ROW(probe_attach(h, 1), 0, "attach");
    ROW(probe_spawn(h, 2, 0, 5), 0, "spawn");
    ROW(probe_check(h, 1), 0, "check, idle");
    ROW(probe_leave(h, 1), 0, "leave, idle");
    ROW(probe_enter(h, 1), 0, "enter");
    ROW(probe_detach(h, 1), 0, "detach, holds nothing");
}

/* Sixteen roots, a full segment; root 0 holds root 1 in its pointer 0. */
static void build_sixteen(struct heap *h) {
    heap_reopen(h);
    build_full_segment(h, 0);
    for (u32 root = 0; root < 16; root++) MUST(HEAP(make)(OVER(h), 0, root, 2, 1), 0);
    MUST(HEAP(store)(OVER(h), 0, 0, 0, 1), 0);
}

static void rows_handshake(struct heap *h) {
    build_sixteen(h);
    MUST(HEAP(start)(OVER(h)), 0);
    ROW(probe_step(h), STEP(WAITING) | (u64)1 << 40, "step: waiting");
    ROW(probe_check(h, 0), 0, "check, first handshake");
    ROW(probe_step(h), STEP(MOVED), "step: first handshake, 1 mutator");
    ROW(probe_check(h, 0), 0, "check, second handshake, 16 roots");
    ROW(probe_step(h), STEP(MOVED), "step: second handshake, 1 mutator");
}

/* Of each duty one store whose values are not yet on the trace stack. */
static void rows_store(struct heap *h) {
    build_sixteen(h);
    MUST(HEAP(start)(OVER(h)), 0);
    MUST(HEAP(check)(OVER(h), 0), 0);
    ROW(probe_store(h, 0, 0, 0, 2), 0, "store: new and old pushed");
    build_sixteen(h);
    MUST(HEAP(clear)(OVER(h), 0, 1), 0);
    MUST(HEAP(start)(OVER(h)), 0);
    build_handshakes(h);
    ROW(probe_store(h, 0, 0, 0, 2), 0, "store: old pushed");
    ROW(probe_store(h, 0, 0, 0, 3), 0, "store: old is on the stack already");
}

/* Over segments that are all full, all part, or all free. */
static void rows_start(u32 segments) {
    struct heap h = heap_with_mutator(segments);
    build_dead(&h, 0, 1);
    ROW(probe_start(&h), 0, "start, %u full", segments);
    heap_reopen(&h);
    build_parts(&h);
    ROW(probe_start(&h), 0, "start, %u part", segments);
    heap_reopen(&h);
    ROW(probe_start(&h), 0, "start, %u free", segments);
    heap_close(&h);
}

/* The roots are taken from the trace stack from the last on: 15 a leaf, then records of 16, 64, 1,023 and 4,095 pointers. */
static void rows_mark(struct heap *h) {
    const u32 fans[4] = {16, 64, 1023, 4095};
    heap_reopen(h);
    build_full_segment(h, 0);
    for (u32 i = 0; i < 4; i++) build_fan(h, 0, 14 - i, fans[i], 0);
    MUST(HEAP(make)(OVER(h), 0, 15, 0, 1), 0);
    MUST(HEAP(start)(OVER(h)), 0);
    build_handshakes(h);
    ROW(probe_step(h), STEP(TRACED), "step: mark, a record without pointers");
    for (u32 i = 0; i < 4; i++) {
        ROW(probe_step(h), STEP(TRACED), "step: mark, %u new pointers", fans[i]);
        for (u32 leaf = 0; leaf < fans[i]; leaf++) MUST(HEAP(step)(OVER(h)), STEP(TRACED));
    }
    ROW(probe_step(h), STEP(MOVED), "step: mark is over");
}

/* One condemned segment of class 3, 1,023 of its 2,048 or 4,096 blocks live; the others of the heap are free or in
 * use. */
static void rows_sweep(u32 segments) {
    struct heap h = heap_with_mutator(segments);
    u32 blocks = BORVUKHAI_BLOCKS(h.kib, 3);
    build_fan(&h, 0, 15, 1023, 1);
    for (u32 i = 2 * 1023; i < blocks; i++) MUST(HEAP(make)(OVER(&h), 0, 0, 0, 1), 0);
    MUST(HEAP(clear)(OVER(&h), 0, 0), 0);
    MUST(HEAP(start)(OVER(&h)), 0);
    build_handshakes(&h);
    MUST(build_marked(&h), 1024);
    ROW(probe_step(&h), STEP(SWEPT) | (u64)1 << 40 | (u64)(blocks - 1023) << 48, "step: sweep of class 3, %u segments", segments);
    ROW(probe_step(&h), STEP(DONE), "step: done, %u segments", segments);
    ROW(probe_step(&h), STEP(IDLE), "step: idle");
    heap_close(&h);
}

int main(void) {
    struct heap h = heap_open(256);
    rows_make(&h, 0, 1, "0+1");
    rows_make(&h, 1, 1, "1+1");
    rows_make(&h, 8, 8, "8+8");
    rows_make_large(&h);
    rows_make_values(&h);
    rows_fill();
    rows_fields(&h);
    rows_mutators(&h);
    rows_handshake(&h);
    rows_store(&h);
    rows_mark(&h);
    heap_close(&h);
    for (u32 segments = 1; segments <= 256; segments = segments == 1 ? 64 : segments * 4) rows_start(segments);
    rows_sweep(4);
    rows_sweep(256);
    return 0;
}
