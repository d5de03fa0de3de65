/* Sizes: the words of the slice that is lent, and the most stack that make and examine take, all that they call included.
 * Each call is made on a stack of its own that was painted before; the lowest word that lost its colour tells how deep it
 * went, counted from the stack pointer of the C function that calls, so the return address and what is handed over on the
 * stack are in it. One line for each. */
#include <ucontext.h>

#include "build.h"

#define WORDS 8192
#define COLOUR 0xa5c35a3c96e10f78ull

static u64 painted[WORDS];
static ucontext_t here, there;
static struct heap *heap;
static u32 pointers, values, *scratch;
static size_t scratch_words;
static u64 answer, deepest[2];
static char *top;

#define STACK_POINTER(to) __asm__ volatile("mov %%rsp, %0" : "=r"(to))

static void __attribute__((noipa)) call_make(void) {
    STACK_POINTER(top);
    answer = HEAP(make)(OVER(heap), 0, 0, pointers, values);
}

static void __attribute__((noipa)) call_examine(void) {
    STACK_POINTER(top);
    answer = HEAP(examine)(OVER(heap), scratch, scratch_words);
}

/* `call` on the painted stack. */
static void measure(void (*call)(void), u64 expected, u32 which) {
    for (u32 i = 0; i < WORDS; i++) painted[i] = COLOUR;
    getcontext(&there);
    there.uc_stack.ss_sp = painted;
    there.uc_stack.ss_size = sizeof painted;
    there.uc_link = &here;
    makecontext(&there, call, 0);
    swapcontext(&here, &there);
    MUST(answer, expected);
    u32 lowest = 0;
    while (painted[lowest] == COLOUR) lowest++;
    u64 taken = (u64)(top - (char *)&painted[lowest]);
    deepest[which] = taken > deepest[which] ? taken : deepest[which];
}

static void measure_make(struct heap *h, u32 p, u32 v) {
    heap = h, pointers = p, values = v;
    measure(call_make, 0, 0);
}

static void measure_examine(struct heap *h) {
    heap = h;
    measure(call_examine, RESULT(1), 1);
}

static void begin_mark(struct heap *h) {
    MUST(HEAP(start)(OVER(h)), 0);
    build_handshakes(h);
}

/* A heap with room, in idle or in mark. */
static void begin(struct heap *h, int mark) {
    heap_reopen(h);
    if (!mark) return;
    build_full_segment(h, 0);
    begin_mark(h);
}

/* A make of every number of fields, half of them pointers: some take a free segment, some fill the one that is held. From 1,024
 * fields on a segment has two blocks or one, so the heap is begun again. */
static void make_all(struct heap *h, int mark) {
    begin(h, mark);
    for (u32 fields = 0; fields < 4096; fields++) {
        if (fields >= 1024 && fields % 128 == 0) {
            measure_examine(h);
            begin(h, mark);
        }
        measure_make(h, fields / 2, fields - fields / 2);
    }
    measure_examine(h);
}

static void end_cycle(struct heap *h) {
    build_marked(h);
    while (borvukhai_step_kind(HEAP(step)(OVER(h))) != BORVUKHAI_STEP_DONE) continue;
}

/* Two part segments of class 3 in which every second block is free, filled: the place climbs, words and segments end.
 * A start leaves no segment part, so for mark mutators 1 and 2, outside in the handshakes, hold them and hand them
 * back. */
static void make_in_parts(struct heap *h, int mark) {
    heap_reopen(h);
    build_fan(h, 0, 14, 1023, 1);
    build_fan(h, 0, 15, 1023, 1);
    for (u32 i = 0; i < 4; i++) MUST(HEAP(make)(OVER(h), 0, 0, 0, 1), 0);
    build_cycle(h);
    measure_examine(h);
    if (mark) {
        for (u32 m = 1; m < 3; m++) {
            MUST(HEAP(attach)(OVER(h), m), 0);
            MUST(HEAP(make)(OVER(h), m, 0, 0, 1), 0);
            MUST(HEAP(leave)(OVER(h), m), 0);
        }
        build_full_segment(h, 0);
        begin_mark(h);
        for (u32 m = 1; m < 3; m++) {
            MUST(HEAP(enter)(OVER(h), m), 0);
            MUST(HEAP(detach)(OVER(h), m), 0);
        }
    }
    for (u32 i = 0; i < 2100; i++) measure_make(h, 0, 1);
    measure_examine(h);
}

/* Part segments that are condemned. */
static void examine_condemned_parts(struct heap *h) {
    heap_reopen(h);
    build_parts(h);
    begin_mark(h);
    measure_examine(h);
    end_cycle(h);
    measure_examine(h);
}

/* The words of the slice at the size of the moment. */
static void say_words(const char *size) {
    size_t one = HEAP(length)(1, bench_kib), each = HEAP(length)(2, bench_kib) - one;
    MUST(HEAP(length)(256, bench_kib), one + 255 * each);
    printf("words for each segment%s\t%zu\nwords beside them%s\t%zu\n", size, each, size, one - each);
}

int main(void) {
    struct heap h = heap_with_mutator(256);
    scratch_words = HEAP(scratch_length)(256, h.kib);
    scratch = calloc(scratch_words, sizeof(u32));
    measure_examine(&h);
    make_all(&h, 0);
    make_all(&h, 1);
    make_in_parts(&h, 0);
    make_in_parts(&h, 1);
    examine_condemned_parts(&h);
    heap_reopen(&h);
    u32 live = build_graph(&h, 0);
    begin_mark(&h);
    for (u32 i = 0; i < live / 2; i++) MUST(HEAP(step)(OVER(&h)), STEP(TRACED));
    measure_examine(&h);
    end_cycle(&h);
    measure_examine(&h);
    say_words("");
    bench_kib = 32;
    say_words(AT_SIZE);
    printf("stack of make\t%llu\nstack of examine\t%llu\n", (unsigned long long)deepest[0], (unsigned long long)deepest[1]);
    free(scratch);
    heap_close(&h);
    return 0;
}
