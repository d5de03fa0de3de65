/* Instructions of the mutation workload without a collector and with one step after every 16, 4 and 1 calls of the mutators.
 * The rows are dumps of callgrind's; prints for each the mutators' calls, the steps, the cycles and the sum of values read. */
#include "count.h"
#include "mutate.h"

PROBE u64 probe_mutate(struct mutate *w, u32 calls) {
    while (w->calls < calls) mutate_turn(w);
    return w->sum;
}

static void row_pace(u32 pace, u32 calls) {
    struct heap h = heap_open(64);
    struct mutate w = mutate_begin(&h);
    w.pace = pace;
    CALLGRIND_ZERO_STATS;
    probe_mutate(&w, calls);
    char name[96];
    if (pace == 0) snprintf(name, sizeof name, "mutation, no collector");
    else snprintf(name, sizeof name, "mutation, a step every %u calls", pace);
    CALLGRIND_DUMP_STATS_AT(name);
    printf("calls: %s\t%u\t%u\t%u\t%llx\n", name, w.calls, w.steps, w.cycles, (unsigned long long)w.sum);
    heap_close(&h);
}

int main(void) {
    row_pace(0, 100000);
    row_pace(16, 400000);
    row_pace(4, 400000);
    row_pace(1, 400000);
    return 0;
}
