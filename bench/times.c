/* Times, in nanoseconds a call, of the workloads that the other programs count: one line each. The machine may be busy, so
 * bench/run runs it many times, the libraries in turn, and compares within a turn. */
#include "build.h"
#include "clock.h"
#include "mutate.h"

#define CALLS 200000

/* `call` so often, its answer checked each time. */
#define TIME(name, call, expected)                                            \
    do {                                                                      \
        u64 begin_ = now_working();                                                   \
        for (u32 i = 0; i < CALLS; i++) MUST(call, expected);                 \
        printf("%s\t%.3f\n", name, (double)(now_working() - begin_) / CALLS);         \
    } while (0)

static void time_fields(void) {
    struct heap heap = heap_with_mutator(256), *h = &heap;
    MUST(HEAP(make)(OVER(h), 0, 0, 2, 2), 0);
    MUST(HEAP(make)(OVER(h), 0, 1, 2, 2), 0);
    TIME("store: nothing", HEAP(store)(OVER(h), 0, 0, 1, 1), 0);
    TIME("load", HEAP(load)(OVER(h), 0, 2, 0, 1), 0);
    TIME("put", HEAP(put)(OVER(h), 0, 0, 1, 77), 0);
    TIME("get", HEAP(get)(OVER(h), 0, 0, 1), RESULT(77));
    TIME("copy", HEAP(copy)(OVER(h), 0, 4, 0), 0);
    TIME("same", HEAP(same)(OVER(h), 0, 4, 0), RESULT(1));
    TIME("shape", HEAP(shape)(OVER(h), 0, 0), RESULT(2 << 16 | 2));
    TIME("clear", HEAP(clear)(OVER(h), 0, 4), 0);
    TIME("check, idle", HEAP(check)(OVER(h), 0), 0);
    heap_close(h);
}

/* An empty heap of 256 segments filled; the first filling, not timed, touches the memory. */
static void time_make(u32 pointers, u32 values, const char *name) {
    struct heap h = heap_with_mutator(256);
    build_dead(&h, pointers, values);
    heap_reopen(&h);
    u64 begin = now_working();
    u32 made = build_dead(&h, pointers, values);
    printf("%s\t%.3f\n", name, (double)(now_working() - begin) / made);
    heap_close(&h);
}

static void time_cycle(struct heap *h, u32 records, const char *name) {
    u32 traced = 0, kind;
    u64 begin = now_working();
    MUST(HEAP(start)(OVER(h)), 0);
    do {
        kind = borvukhai_step_kind(HEAP(step)(OVER(h)));
        if (kind == BORVUKHAI_STEP_WAITING) MUST(HEAP(check)(OVER(h), 0), 0);
        if (kind == BORVUKHAI_STEP_TRACED) traced++;
    } while (kind != BORVUKHAI_STEP_DONE);
    u64 end = now_working();
    printf("%s\t%.3f\n", name, (double)(end - begin) / records);
    if (traced != 0) MUST(traced, records);
}

static void time_cycles(u32 segments) {
    char name[96];
    struct heap h = heap_with_mutator(segments);
    u32 live = build_graph(&h, 1);
    snprintf(name, sizeof name, "cycle, %u segments, half live", segments);
    time_cycle(&h, live, name);
    heap_reopen(&h);
    build_dead(&h, 0, 1);
    snprintf(name, sizeof name, "cycle, %u segments, dead, class 3", segments);
    time_cycle(&h, segments, name);
    heap_close(&h);
}

static void time_pace(u32 pace) {
    struct heap h = heap_open(64);
    struct mutate w = mutate_begin(&h);
    w.pace = pace;
    u64 begin = now_working();
    while (w.calls < (pace == 0 ? 100000 : 400000)) mutate_turn(&w);
    u64 end = now_working();
    if (pace == 0) printf("mutation, no collector\t%.3f\n", (double)(end - begin) / w.calls);
    else printf("mutation, a step every %u calls\t%.3f\n", pace, (double)(end - begin) / w.calls);
    heap_close(&h);
}

/* One call, in ns: the least of many times, each in a state that is built again. */
static void time_longest(void (*build)(struct heap *), u64 answer, const char *name) {
    struct heap h = heap_open(256);
    u64 least = UINT64_MAX;
    for (u32 i = 0; i < 15; i++) {
        build(&h);
        u64 begin = now();
        MUST(answer == 0 ? HEAP(start)(OVER(&h)) : HEAP(step)(OVER(&h)), answer);
        u64 length = now() - begin;
        least = length < least ? length : least;
    }
    printf("%s\t%llu\n", name, (unsigned long long)least);
    heap_close(&h);
}

static void build_for_start(struct heap *h) {
    heap_reopen(h);
    build_dead(h, 8, 8);
}

static void build_for_handshake(struct heap *h) {
    build_outside(h, 32);
    MUST(HEAP(step)(OVER(h)), STEP(MOVED));
}

static void build_for_mark(struct heap *h) {
    heap_reopen(h);
    build_full_segment(h, 0);
    build_fan(h, 0, 15, 4095, 0);
    MUST(HEAP(start)(OVER(h)), 0);
    build_handshakes(h);
}

int main(void) {
    time_fields();
    time_make(1, 1, "make 1+1");
    time_make(8, 8, "make 8+8");
    time_cycles(64);
    time_cycles(256);
    time_pace(0);
    time_pace(16);
    time_pace(4);
    time_pace(1);
    time_longest(build_for_start, 0, "longest start");
    time_longest(build_for_handshake, STEP(MOVED), "longest step in a handshake");
    time_longest(build_for_mark, STEP(TRACED), "longest step in mark");
    return 0;
}
