/* Instructions of the longest calls that 256 segments allow, one state built for each; calls.c has those whose work does not
 * depend on the heap. Prints nothing: every row is a dump of callgrind's. */
#include "build.h"
#include "count.h"

/* A part segment of class 3 in which blocks 0, 1 and 2,047 alone are free; records of many pointers hold the rest. */
static void build_almost_full(struct heap *h) {
    heap_reopen(h);
    for (u32 i = 0; i < 2; i++) MUST(HEAP(make)(OVER(h), 0, 0, 0, 1), 0);
    build_fan(h, 0, 14, 1023, 0);
    build_fan(h, 0, 15, 1022, 0);
    MUST(HEAP(make)(OVER(h), 0, 0, 0, 1), 0);
    MUST(HEAP(clear)(OVER(h), 0, 0), 0);
    build_cycle(h);
}

/* A cycle in mark, where a new record is born marked. The roots 14 and 15 stay. */
static void begin_mark(struct heap *h) {
    build_full_segment(h, 0);
    MUST(HEAP(start)(OVER(h)), 0);
    build_handshakes(h);
}

/* A start leaves no segment part: mutator 1, outside in the handshakes, takes that one with its block 0, and hands it
 * back in mark. */
static void rows_make_long(struct heap *h) {
    build_almost_full(h);
    MUST(HEAP(attach)(OVER(h), 1), 0);
    MUST(HEAP(make)(OVER(h), 1, 0, 0, 1), 0);
    MUST(HEAP(leave)(OVER(h), 1), 0);
    begin_mark(h);
    MUST(HEAP(enter)(OVER(h), 1), 0);
    MUST(HEAP(detach)(OVER(h), 1), 0);
    ROW(probe_make(h, 0, 0, 0, 1), 0, "make in mark, takes a part segment, next free block is the last");
    ROW(probe_make(h, 0, 0, 0, 1), 0, "make in mark, climbs to the last block, segment becomes full");
    ROW(probe_make(h, 0, 0, 0, 1), 0, "make in mark, 0+1, takes a free segment");
    for (u32 i = 0; i < 2; i++) MUST(HEAP(make)(OVER(h), 0, 0, 0, 1023), 0);
    ROW(probe_make(h, 0, 0, 1023, 0), 0, "make in mark, 1023+0, takes a free segment");
    for (u32 i = 0; i < 2; i++) MUST(HEAP(make)(OVER(h), 0, 0, 0, 1023), 0);
    ROW(probe_make(h, 0, 0, 1023, 0), 0, "make in mark, 1023+0, segment becomes full");
    MUST(HEAP(make)(OVER(h), 0, 0, 0, 2047), 0);
    ROW(probe_make(h, 0, 0, 2047, 0), 0, "make in mark, 2047+0, segment becomes full");
    ROW(probe_make(h, 0, 0, 4095, 0), 0, "make in mark, 4095+0, takes a free segment, full at once");
}

/* A record of each class: at 16 KiB the last one's segment is full at once, so the detach hands back eleven; at 32 it
 * hands back twelve. */
static void rows_attach_long(struct heap *h) {
    const u32 fields[12] = {1, 3, 7, 15, 31, 63, 127, 255, 511, 1023, 2047, 4095};
    heap_reopen(h);
    begin_mark(h);
    MUST(HEAP(make)(OVER(h), 0, 0, 1, 1), 0);
    ROW(probe_attach(h, 1), 0, "attach in mark");
    ROW(probe_spawn(h, 2, 0, 0), 0, "spawn in mark");
    for (u32 i = 0; i < 12; i++) MUST(HEAP(make)(OVER(h), 1, i, 0, fields[i]), 0);
    ROW(probe_detach(h, 1), 0, "detach, hands back %s segments", h->kib == 16 ? "eleven" : "twelve");
}

static void rows_outside(struct heap *h) {
    build_outside(h, 31);
    MUST(HEAP(check)(OVER(h), 0), 0);
    ROW(probe_step(h), STEP(MOVED), "step: first handshake, 31 mutators outside");
    MUST(HEAP(check)(OVER(h), 0), 0);
    ROW(probe_step(h), STEP(MOVED), "step: second handshake, 31 mutators outside");
    build_outside(h, 32);
    ROW(probe_step(h), STEP(MOVED), "step: first handshake, 32 mutators outside");
    ROW(probe_step(h), STEP(MOVED), "step: second handshake, 32 mutators outside");
}

/* A leave that acknowledges the second handshake, with sixteen records of its own. */
static void rows_leave(struct heap *h) {
    heap_reopen(h);
    build_full_segment(h, 0);
    for (u32 root = 0; root < 16; root++) MUST(HEAP(make)(OVER(h), 0, root, 1, 1), 0);
    MUST(HEAP(start)(OVER(h)), 0);
    MUST(HEAP(check)(OVER(h), 0), 0);
    MUST(HEAP(step)(OVER(h)), STEP(MOVED));
    ROW(probe_leave(h, 0), 0, "leave, second handshake, 16 roots");
}

/* Every segment full: 255 of dead records of 1,023 values, and the last one of class 3, 1,022 of whose blocks are live. */
static void rows_sweep_long(struct heap *h) {
    u64 answer;
    heap_reopen(h);
    MUST(HEAP(make)(OVER(h), 0, 15, 1022, 0), 0);
    for (u32 i = 1; i < 255 * 4; i++) MUST(HEAP(make)(OVER(h), 0, 0, 0, 1023), 0);
    for (u32 i = 0; i < 2048; i++) {
        MUST(HEAP(make)(OVER(h), 0, 0, 0, 1), 0);
        if (i % 2 == 0 && i < 2044) MUST(HEAP(store)(OVER(h), 0, 15, i / 2, 0), 0);
    }
    MUST(HEAP(clear)(OVER(h), 0, 0), 0);
    MUST(HEAP(start)(OVER(h)), 0);
    build_handshakes(h);
    MUST(build_marked(h), 1023);
    do answer = HEAP(step)(OVER(h));
    while (borvukhai_step_segment(answer) != 254);
    ROW(probe_step(h), STEP(SWEPT) | (u64)255 << 40 | (u64)1026 << 48, "step: sweep of class 3, last of 256 segments");
}

int main(void) {
    struct heap h = heap_open(256);
    ROW(probe_open(&h), 0, "open, 256 segments");
    rows_make_long(&h);
    rows_attach_long(&h);
    rows_outside(&h);
    rows_leave(&h);
    rows_sweep_long(&h);
    heap_close(&h);
    return 0;
}
