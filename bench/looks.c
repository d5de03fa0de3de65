/* Instructions of the looks at 256 segments that are all full of a live graph, in mark with half of it marked; and of
 * the sheet of one full segment. The rows are dumps of callgrind's. */
#include "build.h"
#include "count.h"

PROBE u64 probe_phase(struct heap *h) { return HEAP(phase)(OVER(h)); }
PROBE u32 probe_states(struct heap *h, u32 *output, size_t length) { return HEAP(states)(OVER(h), output, length); }
PROBE u32 probe_sheet(struct heap *h, uint8_t *output, size_t length) { return HEAP(sheet)(OVER(h), output, length); }
PROBE u64 probe_examine(struct heap *h, u32 *scratch, size_t length) { return HEAP(examine)(OVER(h), scratch, length); }

/* The sheet, and the letter of its first line. */
static void row_sheet(struct heap *h, u32 letter, const char *name) {
    size_t length = HEAP(sheet_length)(h->segments, h->kib);
    uint8_t *output = calloc(length, 1);
    ROW(probe_sheet(h, output, length), 0, "%s", name);
    MUST(output[7], letter);
    free(output);
}

static void rows_looks(void) {
    struct heap h = heap_with_mutator(256);
    size_t output_length = HEAP(states_length)(256, h.kib), scratch_length = HEAP(scratch_length)(256, h.kib);
    u32 *output = calloc(output_length, sizeof(u32)), *scratch = calloc(scratch_length, sizeof(u32));
    u32 live = build_graph(&h, 0);
    MUST(HEAP(start)(OVER(&h)), 0);
    build_handshakes(&h);
    for (u32 i = 0; i < live / 2; i++) MUST(HEAP(step)(OVER(&h)), STEP(TRACED));
    ROW(probe_phase(&h), RESULT(BORVUKHAI_MARK), "phase");
    ROW(probe_states(&h, output, output_length), 0, "states, 256 segments");
    MUST(output[0], BORVUKHAI_SEGMENT_CONDEMNED);
    row_sheet(&h, 'C', "sheet, 256 segments");
    ROW(probe_examine(&h, scratch, scratch_length), RESULT(1), "examine, 256 segments, live");
    free(output);
    free(scratch);
    heap_close(&h);
}

static void rows_sheet_of_one(void) {
    struct heap h = heap_with_mutator(1);
    build_graph(&h, 0);
    row_sheet(&h, 'L', "sheet, 1 segment");
    heap_close(&h);
}

int main(void) {
    rows_looks();
    rows_sheet_of_one();
    return 0;
}
