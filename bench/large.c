/* Rows of calls.c, longest.c, cycles.c and looks.c again, over segments of 32 KiB; and makes into the upper half of a
 * segment of class 3, which 16 KiB do not have. The rows are dumps of callgrind's, their names end with the size; prints
 * the live records of each row of a cycle. */
#define main main_of_calls /* their heaps and probes, and not their runs */
#include "calls.c"
#undef main
#define main main_of_longest
#include "longest.c"
#undef main
#define main main_of_cycles
#include "cycles.c"
#undef main
#define main main_of_looks
#include "looks.c"
#undef main

PROBE u32 probe_makes(struct heap *h, u32 count) {
    while (count != 0 && HEAP(make)(OVER(h), 0, 0, 0, 1) == 0) count--;
    return count;
}

/* Blocks 2,048 to 4,095: block 2,049, for which the word of the place is at hand, the last bit of that word, and what a
 * make costs on the average up to the last block. */
static void rows_upper(struct heap *h) {
    heap_reopen(h);
    for (u32 i = 0; i < 2049; i++) MUST(HEAP(make)(OVER(h), 0, 0, 0, 1), 0);
    ROW(probe_make(h, 0, 0, 0, 1), 0, "make 0+1, block 2,049");
    for (u32 i = 2050; i < 2079; i++) MUST(HEAP(make)(OVER(h), 0, 0, 0, 1), 0);
    ROW(probe_make(h, 0, 0, 0, 1), 0, "make 0+1, block 2,079, last bit of a word");
    heap_reopen(h);
    for (u32 i = 0; i < 2048; i++) MUST(HEAP(make)(OVER(h), 0, 0, 0, 1), 0);
    ROW(probe_makes(h, 2048), 0, "fill 0+1 from block 2,048 on");
}

int main(void) {
    bench_kib = 32;
    struct heap h = heap_open(256);
    rows_make(&h, 0, 1, "0+1");
    rows_make(&h, 1, 1, "1+1");
    rows_make(&h, 8, 8, "8+8");
    rows_upper(&h);
    rows_fields(&h);
    rows_store(&h);
    rows_mark(&h);
    rows_attach_long(&h);
    heap_close(&h);
    rows_sweep(256);
    rows_cycle(64);
    rows_looks();
    return 0;
}
