/* Two clocks, in nanoseconds: one that always runs, for single calls, and one that stands still while another process has the
 * core, for whole workloads (it is slow to read). */
#ifndef BENCH_CLOCK_H
#define BENCH_CLOCK_H

#include <stdint.h>
#include <time.h>

static inline uint64_t read_clock(clockid_t clock) {
    struct timespec t;
    clock_gettime(clock, &t);
    return (uint64_t)t.tv_sec * 1000000000u + (uint64_t)t.tv_nsec;
}

static inline uint64_t now(void) { return read_clock(CLOCK_MONOTONIC); }
static inline uint64_t now_working(void) { return read_clock(CLOCK_THREAD_CPUTIME_ID); }

#endif
