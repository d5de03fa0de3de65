/* One C interface, two libraries: the prototypes of include/borvukhai.h under the prefix that BENCH_PREFIX names, and
 * the few functions that every workload uses. A workload is compiled once for each library. */
#ifndef BENCH_HEAP_H
#define BENCH_HEAP_H

#include <stdio.h>
#include <stdlib.h>
#include <string.h>

#include "../include/borvukhai.h"

#ifndef BENCH_PREFIX
#define BENCH_PREFIX borvukhai_
#endif
#define JOIN_EXPANDED(a, b) a##b
#define JOIN(a, b) JOIN_EXPANDED(a, b)
#define HEAP(call) JOIN(BENCH_PREFIX, call)

typedef uint32_t u32;
typedef uint64_t u64;

size_t HEAP(length)(u32 segments, u32 kib);
size_t HEAP(states_length)(u32 segments, u32 kib);
size_t HEAP(scratch_length)(u32 segments, u32 kib);
size_t HEAP(sheet_length)(u32 segments, u32 kib);
u32 HEAP(open)(u32 segments, u32 kib, u32 *mem, size_t length);
u32 HEAP(attach)(u32 segments, u32 kib, u32 *mem, size_t length, u32 mutator);
u32 HEAP(spawn)(u32 segments, u32 kib, u32 *mem, size_t length, u32 mutator, u32 parent, u32 root);
u32 HEAP(detach)(u32 segments, u32 kib, u32 *mem, size_t length, u32 mutator);
u32 HEAP(make)(u32 segments, u32 kib, u32 *mem, size_t length, u32 mutator, u32 to, u32 pointers, u32 values);
u32 HEAP(load)(u32 segments, u32 kib, u32 *mem, size_t length, u32 mutator, u32 to, u32 root, u32 field);
u32 HEAP(store)(u32 segments, u32 kib, u32 *mem, size_t length, u32 mutator, u32 root, u32 field, u32 from);
u32 HEAP(put)(u32 segments, u32 kib, u32 *mem, size_t length, u32 mutator, u32 root, u32 field, u32 value);
u32 HEAP(copy)(u32 segments, u32 kib, u32 *mem, size_t length, u32 mutator, u32 to, u32 from);
u32 HEAP(clear)(u32 segments, u32 kib, u32 *mem, size_t length, u32 mutator, u32 to);
u32 HEAP(check)(u32 segments, u32 kib, u32 *mem, size_t length, u32 mutator);
u32 HEAP(leave)(u32 segments, u32 kib, u32 *mem, size_t length, u32 mutator);
u32 HEAP(enter)(u32 segments, u32 kib, u32 *mem, size_t length, u32 mutator);
u32 HEAP(start)(u32 segments, u32 kib, u32 *mem, size_t length);
u32 HEAP(states)(u32 segments, u32 kib, const u32 *mem, size_t length, u32 *output, size_t output_length);
u32 HEAP(sheet)(u32 segments, u32 kib, const u32 *mem, size_t length, uint8_t *output, size_t output_length);
u64 HEAP(get)(u32 segments, u32 kib, const u32 *mem, size_t length, u32 mutator, u32 root, u32 field);
u64 HEAP(same)(u32 segments, u32 kib, const u32 *mem, size_t length, u32 mutator, u32 root, u32 other);
u64 HEAP(shape)(u32 segments, u32 kib, const u32 *mem, size_t length, u32 mutator, u32 root);
u64 HEAP(step)(u32 segments, u32 kib, u32 *mem, size_t length);
u64 HEAP(phase)(u32 segments, u32 kib, const u32 *mem, size_t length);
u64 HEAP(examine)(u32 segments, u32 kib, const u32 *mem, size_t length, u32 *scratch, size_t scratch_length);

/* The lent slice with its segment count and size: what every call takes first. */
struct heap {
    u32 segments, kib;
    u32 *mem;
    size_t length;
};
#define OVER(heap) (heap)->segments, (heap)->kib, (heap)->mem, (heap)->length

/* Answers of 64 bits with a result and no refusal. */
#define RESULT(value) ((u64)(value) << 32)
#define STEP(kind) RESULT(BORVUKHAI_STEP_##kind)

/* A call whose answer is known: any other answer ends the program, so both libraries do the same work. */
#define MUST(call, expected)                                                                       \
    do {                                                                                           \
        u64 answer_ = (u64)(call);                                                                 \
        if (answer_ != (u64)(expected)) wrong(#call, answer_, (u64)(expected), __FILE__, __LINE__); \
    } while (0)

static inline void wrong(const char *call, u64 answer, u64 expected, const char *file, int line) {
    fprintf(stderr, "%s:%d: %s answers %llx, not %llx\n", file, line, call, (unsigned long long)answer, (unsigned long long)expected);
    exit(1);
}

/* The segment size of the heaps that are opened, and what the names of their rows end with. */
static u32 bench_kib = 16;
#define AT_SIZE (bench_kib == 16 ? "" : ", 32 KiB")

/* Memory of arbitrary content, opened. */
static inline struct heap heap_open(u32 segments) {
    struct heap heap = {segments, bench_kib, NULL, HEAP(length)(segments, bench_kib)};
    heap.mem = malloc(heap.length * sizeof(u32));
    if (heap.mem == NULL) wrong("malloc", 0, 1, __FILE__, __LINE__);
    for (size_t i = 0; i < heap.length; i++) heap.mem[i] = (u32)i * 2654435761u;
    MUST(HEAP(open)(OVER(&heap)), 0);
    return heap;
}

/* The same memory, whatever it holds by now, opened again with mutator 0 attached. */
static inline void heap_reopen(struct heap *heap) {
    MUST(HEAP(open)(OVER(heap)), 0);
    MUST(HEAP(attach)(OVER(heap), 0), 0);
}

static inline struct heap heap_with_mutator(u32 segments) {
    struct heap heap = heap_open(segments);
    MUST(HEAP(attach)(OVER(&heap), 0), 0);
    return heap;
}

static inline void heap_close(struct heap *heap) { free(heap->mem); }

/* A random number below `bound`, from a state that the workload seeds: the same in both libraries. */
static inline u32 below(u64 *state, u32 bound) {
    *state ^= *state << 13;
    *state ^= *state >> 7;
    *state ^= *state << 17;
    return (u32)((*state >> 32) * bound >> 32);
}
#define SEED 88172645463325252ull

#endif
