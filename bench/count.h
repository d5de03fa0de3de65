/* Counting by callgrind: a row is what runs inside functions whose name begins with probe_, between BEGIN and END. Each
 * probe is a small function of its own that makes one call of the heap, so a row has two counts: the probe's, and the
 * call's alone, which the count of the probe's callee gives. */
#ifndef BENCH_COUNT_H
#define BENCH_COUNT_H

#include <valgrind/callgrind.h>

#include "heap.h"

#define PROBE static __attribute__((noipa, unused))

/* One row: the probe's answer is checked outside the counted part. */
#define ROW(probe, expected, ...)                          \
    do {                                                   \
        char name_[96];                                    \
        snprintf(name_, sizeof name_ - 8, __VA_ARGS__);    \
        strcat(name_, AT_SIZE);                            \
        CALLGRIND_ZERO_STATS;                              \
        u64 answer_ = (u64)(probe);                        \
        CALLGRIND_DUMP_STATS_AT(name_);                    \
        if (answer_ != (u64)(expected)) wrong(name_, answer_, (u64)(expected), __FILE__, __LINE__); \
    } while (0)

PROBE u32 probe_make(struct heap *h, u32 mutator, u32 to, u32 pointers, u32 values) {
    return HEAP(make)(OVER(h), mutator, to, pointers, values);
}
PROBE u32 probe_load(struct heap *h, u32 mutator, u32 to, u32 root, u32 field) {
    return HEAP(load)(OVER(h), mutator, to, root, field);
}
PROBE u32 probe_store(struct heap *h, u32 mutator, u32 root, u32 field, u32 from) {
    return HEAP(store)(OVER(h), mutator, root, field, from);
}
PROBE u32 probe_put(struct heap *h, u32 mutator, u32 root, u32 field, u32 value) {
    return HEAP(put)(OVER(h), mutator, root, field, value);
}
PROBE u64 probe_get(struct heap *h, u32 mutator, u32 root, u32 field) { return HEAP(get)(OVER(h), mutator, root, field); }
PROBE u32 probe_copy(struct heap *h, u32 mutator, u32 to, u32 from) { return HEAP(copy)(OVER(h), mutator, to, from); }
PROBE u32 probe_clear(struct heap *h, u32 mutator, u32 to) { return HEAP(clear)(OVER(h), mutator, to); }
PROBE u64 probe_same(struct heap *h, u32 mutator, u32 root, u32 other) { return HEAP(same)(OVER(h), mutator, root, other); }
PROBE u64 probe_shape(struct heap *h, u32 mutator, u32 root) { return HEAP(shape)(OVER(h), mutator, root); }
PROBE u32 probe_attach(struct heap *h, u32 mutator) { return HEAP(attach)(OVER(h), mutator); }
PROBE u32 probe_spawn(struct heap *h, u32 mutator, u32 parent, u32 root) { return HEAP(spawn)(OVER(h), mutator, parent, root); }
PROBE u32 probe_detach(struct heap *h, u32 mutator) { return HEAP(detach)(OVER(h), mutator); }
PROBE u32 probe_check(struct heap *h, u32 mutator) { return HEAP(check)(OVER(h), mutator); }
PROBE u32 probe_leave(struct heap *h, u32 mutator) { return HEAP(leave)(OVER(h), mutator); }
PROBE u32 probe_enter(struct heap *h, u32 mutator) { return HEAP(enter)(OVER(h), mutator); }
PROBE u32 probe_open(struct heap *h) { return HEAP(open)(OVER(h)); }
PROBE u32 probe_start(struct heap *h) { return HEAP(start)(OVER(h)); }
PROBE u64 probe_step(struct heap *h) { return HEAP(step)(OVER(h)); }

#endif
