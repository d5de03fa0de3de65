/* The record heap and its incremental garbage collector, for C and C++.
 *
 * Every call takes the count of segments, their size in KiB (16 or 32), the lent slice, which is a pointer and its
 * length in words of 32 bits, and then its own numbers. It asks nothing of the numbers and nothing of what the words
 * hold: it answers a result, or one refusal of the list below, always. It keeps nothing between calls but the words of
 * the slice.
 *
 * All calls over one heap name the count and the size that it was opened with; both are of the whole heap. The slice's
 * length follows from the two, and that of another count or of the other size is never the same: a call over a heap's
 * own slice that names one of these is refused SIZE, and changes no word.
 *
 * A lent slice: a pointer that is not null, aligned to 4 bytes, also where the length is 0, to so many words, of no more than PTRDIFF_MAX
 * bytes, that may be read (and written, where it is not const), which overlap no other slice of the call; so too where the length is one
 * that is refused. The output of borvukhai_sheet is a slice of bytes: its length is in bytes, and its pointer needs no alignment; the rest
 * is asked of it too. While a call runs nobody else writes to its slices, nor reads those that are not const: no call that changes the heap
 * runs while any other call over the same slice runs, in either order. Calls that take the heap as const may overlap one another, each
 * with an output or scratch of its own.
 *
 * The terms: a mutator (document 01: script) is 0 to 31, a root (document 01: slot) 0 to 15. A record has pointers (document 01: links),
 * numbered from 0, and values (document 01: numbers), numbered from 0. A reference never leaves the heap: records are named by roots.
 */
#ifndef BORVUKHAI_H
#define BORVUKHAI_H

#include <stddef.h>
#include <stdint.h>

/* The library's own lengths have 64 bits. Where size_t has 32, a caller and the plain library would silently misread
 * each other's arguments; the library that bindings/port/build makes has wrappers that widen them, and BORVUKHAI_PORT
 * says that it is the one that is linked. */
#if SIZE_MAX < 0xffffffffffffffffu && !defined(BORVUKHAI_PORT)
#error "size_t has 32 bits: link the library that bindings/port/build makes for this target, and compile with -DBORVUKHAI_PORT"
#endif

#ifdef __cplusplus
extern "C" {
#endif

/* The version of this interface, and the number of the layout of the lent slice. A landing that moves a word of the
 * layout raises the number: lengths are compiled into callers, and memory may outlive a restart into a program that was
 * linked with another library. CHANGELOG.md has an entry for each. */
#define BORVUKHAI_VERSION "0.7.1"
#define BORVUKHAI_LAYOUT 4u

/* Refusals, by document 01's words. The lowest number that applies is given. On memory that passes the examination a refusal
 * changes no word, and is never BORVUKHAI_TORN. */
enum {
    BORVUKHAI_OK = 0,
    BORVUKHAI_SIZE = 1,      /* the segment count is not 1 to 256, the segment size is neither 16 nor 32 KiB, or a slice
                              * is not of its length (any call) */
    BORVUKHAI_SCRIPT = 2,    /* a mutator's number over 31 */
    BORVUKHAI_TAKEN = 3,     /* attach or spawn onto a number in use */
    BORVUKHAI_ABSENT = 4,    /* a mutator that must be attached is not */
    BORVUKHAI_SIDE = 5,      /* enter while inside; any other call by a mutator, or for a parent, that is outside */
    BORVUKHAI_SLOT = 6,      /* a root over 15 */
    BORVUKHAI_DARK = 7,      /* nil in the root whose record is wanted */
    BORVUKHAI_FIELD = 8,     /* the record has no such pointer or value */
    BORVUKHAI_TOO_BIG = 9,   /* make with more than 4,095 pointers and values together */
    BORVUKHAI_NO_ROOM = 10,  /* make: no segment of the class has room for this mutator, and none is free; one that is
                              * condemned is no room before its sweep. A cycle that runs may help, and a whole one may;
                              * where the look shows no full, part or condemned segment, no cycle can help. Memory of
                              * zeros that was never opened looks so too: attach is not refused, and every make is */
    BORVUKHAI_NOT_NOW = 11,  /* attach, spawn or detach in a handshake; start while a cycle runs */
    /* 12 is a number that no call gives: a start while no segment is full or part is not refused. */
    BORVUKHAI_TORN = 13      /* memory that fails the examination led the call astray */
};

/* The same three by this header's own terms, which the calls' comments below use. */
enum {
    BORVUKHAI_BAD_MUTATOR = BORVUKHAI_SCRIPT,
    BORVUKHAI_BAD_ROOT = BORVUKHAI_SLOT,
    BORVUKHAI_NIL = BORVUKHAI_DARK
};

/* A sentence for a refusal, for a log; "ok" for 0. */
static inline const char *borvukhai_refusal_text(uint32_t number) {
    switch (number) {
    case BORVUKHAI_OK:
        return "ok";
    case BORVUKHAI_SIZE:
        return "the segment count is not 1 to 256, the segment size is neither 16 nor 32 KiB, or a slice is not of its "
               "length";
    case BORVUKHAI_BAD_MUTATOR:
        return "the mutator's number is over 31";
    case BORVUKHAI_TAKEN:
        return "the mutator's number is in use";
    case BORVUKHAI_ABSENT:
        return "the mutator is not attached";
    case BORVUKHAI_SIDE:
        return "the mutator is outside where it must be inside, or enters while it is inside";
    case BORVUKHAI_BAD_ROOT:
        return "the root's number is over 15";
    case BORVUKHAI_NIL:
        return "the root whose record is wanted is nil";
    case BORVUKHAI_FIELD:
        return "the record has no such pointer or value";
    case BORVUKHAI_TOO_BIG:
        return "a record has at most 4,095 pointers and values together";
    case BORVUKHAI_NO_ROOM:
        return "no segment of the record's class has room for this mutator, and none is free (or the memory was never opened)";
    case BORVUKHAI_NOT_NOW:
        return "a handshake runs, or a cycle that was to start runs already";
    case BORVUKHAI_TORN:
        return "the memory fails the examination and led the call astray";
    default:
        return "no refusal has this number";
    }
}

/* Its name, without the prefix: "NO_ROOM" for BORVUKHAI_NO_ROOM; "" for a number that no call gives. */
static inline const char *borvukhai_refusal_name(uint32_t number) {
    static const char *const names[] = {"OK",  "SIZE",  "BAD_MUTATOR", "TAKEN",   "ABSENT",  "SIDE", "BAD_ROOT",
                                        "NIL", "FIELD", "TOO_BIG",     "NO_ROOM", "NOT_NOW", "",     "TORN"};
    return number < sizeof names / sizeof names[0] ? names[number] : "";
}

/* Phases, as borvukhai_phase answers them. */
enum {
    BORVUKHAI_IDLE = 0,
    BORVUKHAI_SYNC1 = 1,     /* the first handshake (document 01: roll 1) */
    BORVUKHAI_SYNC2 = 2,     /* the second handshake (document 01: roll 2) */
    BORVUKHAI_MARK = 3,
    BORVUKHAI_SWEEP = 4
};

/* What a step did: borvukhai_step_kind of its answer. */
enum {
    BORVUKHAI_STEP_IDLE = 0,    /* no cycle runs */
    BORVUKHAI_STEP_WAITING = 1, /* a handshake waits for borvukhai_step_waiting mutators that are inside */
    BORVUKHAI_STEP_MOVED = 2,   /* the next phase */
    BORVUKHAI_STEP_TRACED = 3,  /* one record marked */
    BORVUKHAI_STEP_SWEPT = 4,   /* borvukhai_step_segment swept, borvukhai_step_freed blocks became free */
    BORVUKHAI_STEP_DONE = 5     /* the cycle has ended */
};

/* A segment's record, as borvukhai_states writes it: six words, those of segment s from s * BORVUKHAI_STATE_WORDS on, so
 * that output[s * BORVUKHAI_STATE_WORDS + BORVUKHAI_STATE_KEPT] is one of them. The last two count blocks: those that
 * the segment's last sweep kept, and those that were handed out since then, or since the opening where it was not swept
 * yet. A sweep sets both, and each make adds 1 to the second in the segment that its block is in.
 *
 * In memory that passes the examination the two counts together are the segment's blocks in use, both are 0 where it is
 * free, and a word that a state does not have is 0. Over other memory place, mutator, both counts, and the class of a
 * free segment may be any number; then the sum of the counts may not fit in 32 bits. */
#define BORVUKHAI_STATE_WORDS 6u
#define BORVUKHAI_STATE_TAG 0u        /* its state, one of those below */
#define BORVUKHAI_STATE_CLASS 1u      /* its class, 3 to 14 */
#define BORVUKHAI_STATE_PLACE 2u      /* the next block to look at; the number of blocks where it is full. A condemned
                                       * one keeps the place that it had: any number up to that of its blocks */
#define BORVUKHAI_STATE_MUTATOR 3u    /* the mutator that holds it */
#define BORVUKHAI_STATE_KEPT 4u       /* the blocks kept at its last sweep, 0 before one */
#define BORVUKHAI_STATE_HANDED_OUT 5u /* the blocks handed out since */

/* States of a segment, and which of class, place and mutator each has. */
enum {
    BORVUKHAI_SEGMENT_FREE = 0,
    BORVUKHAI_SEGMENT_PART = 1,      /* class, place */
    BORVUKHAI_SEGMENT_HELD = 2,      /* class, place, mutator */
    BORVUKHAI_SEGMENT_FULL = 3,      /* class, place */
    BORVUKHAI_SEGMENT_CONDEMNED = 4  /* class, place */
};

/* ---- lengths, in words; the sheet's, in bytes */

/* Whether a number is a count of segments: 1 for 1 to 256, else 0. */
#define BORVUKHAI_IS_COUNT(segments) ((segments) - 1u < 256u)
/* Whether a number is a segment size in KiB: 1 for 16 and 32, else 0. */
#define BORVUKHAI_IS_SIZE(kib) ((kib) == 16 || (kib) == 32)
/* As constants, for arrays; 0 where the count or the size is none, as the functions below. The arguments are named more
 * than once. */
#define BORVUKHAI_LENGTH(segments, kib) \
    (BORVUKHAI_IS_COUNT(segments) && BORVUKHAI_IS_SIZE(kib) ? ((kib) == 32 ? 12568u : 6294u) * (segments) + 1053u : 0u)
#define BORVUKHAI_STATES_LENGTH(segments, kib) \
    (BORVUKHAI_IS_COUNT(segments) && BORVUKHAI_IS_SIZE(kib) ? 6u * (segments) : 0u)
#define BORVUKHAI_SCRATCH_LENGTH(segments, kib) \
    (BORVUKHAI_IS_COUNT(segments) && BORVUKHAI_IS_SIZE(kib) ? ((kib) == 32 ? 4352u : 2176u) * (segments) : 0u)
/* In bytes; 0 where the count is none. The segment size does not matter to it, and is no argument. */
#define BORVUKHAI_SHEET_LENGTH(segments) \
    (BORVUKHAI_IS_COUNT(segments) ? 52u * (segments) + ((segments) - 1u) / 60u : 0u)

/* As functions, which answer 0 for a count that is not 1 to 256 and for a size that is neither 16 nor 32. The slice
 * that every call is lent, for n segments: 6294 n + 1053 words at 16 KiB, 12568 n + 1053 at 32. */
size_t borvukhai_length(uint32_t segments, uint32_t kib);
/* The output of borvukhai_states: 6 n words at either size. */
size_t borvukhai_states_length(uint32_t segments, uint32_t kib);
/* The scratch of borvukhai_examine: 2176 n words at 16 KiB, 4352 n at 32. */
size_t borvukhai_scratch_length(uint32_t segments, uint32_t kib);
/* The output of borvukhai_sheet: 52 n bytes and one for each empty line, the whole part of (n - 1) / 60, at either size;
 * 52, 3120, 3173 and 13316 bytes for 1, 60, 61 and 256 segments. */
size_t borvukhai_sheet_length(uint32_t segments, uint32_t kib);

/* ---- the layout */

/* The number of the layout that the library has, as BORVUKHAI_LAYOUT is this header's. Nothing is refused. */
uint32_t borvukhai_layout(void);
/* 1 where the two are the same, else 0: ask once, before the first call. Lengths of one layout are refused by another.
 * The layout alone: 0.7.0 has 0.6.1's layout and other arguments, so a caller must be compiled with the library's header. */
static inline int borvukhai_check_layout(void) { return borvukhai_layout() == BORVUKHAI_LAYOUT; }

/* ---- size classes, as constants */

/* The class of a record by its pointers and values together: 3 to 14, or 0 for more than 4,095, which make refuses. */
#define BORVUKHAI_CLASS_OF(fields) \
    ((fields) <= 1 ? 3u : (fields) <= 3 ? 4u : (fields) <= 7 ? 5u : (fields) <= 15 ? 6u : (fields) <= 31 ? 7u \
     : (fields) <= 63 ? 8u : (fields) <= 127 ? 9u : (fields) <= 255 ? 10u : (fields) <= 511 ? 11u \
     : (fields) <= 1023 ? 12u : (fields) <= 2047 ? 13u : (fields) <= 4095 ? 14u : 0u)
/* The blocks of a segment of a class, one record each: 2048 of class 3 down to 1 of class 14 at 16 KiB; 4096 down to 2
 * at 32, where no segment is full from its first make; 0 where it is no class or no size. */
#define BORVUKHAI_BLOCKS(kib, number) \
    (BORVUKHAI_IS_SIZE(kib) && (number) - 3u < 12u ? 1024u * (kib) >> (number) % 32u : 0u)

/* ---- calls that answer 0 or a refusal */

/* An empty heap in memory of any content: every segment free, no mutator attached, no cycle. Refused SIZE only. */
uint32_t borvukhai_open(uint32_t segments, uint32_t kib, uint32_t *mem, size_t length);

/* A mutator comes in, inside, its roots nil. Refused SIZE, BAD_MUTATOR, TAKEN, NOT_NOW, TORN. */
uint32_t borvukhai_attach(uint32_t segments, uint32_t kib, uint32_t *mem, size_t length, uint32_t mutator);
/* The same, but root 0 is a copy of one root of a parent that is inside. Refused SIZE, BAD_MUTATOR, TAKEN, ABSENT, SIDE, BAD_ROOT, NOT_NOW,
 * TORN. */
uint32_t borvukhai_spawn(uint32_t segments, uint32_t kib, uint32_t *mem, size_t length, uint32_t mutator,
                         uint32_t parent, uint32_t root);
/* A mutator goes; its roots are emptied, and its number is free for another. The segments that it held are part: twelve
 * at most, one of each class; eleven at 16 KiB, as one of class 14 has a single block there and is full from its first
 * make. Refused SIZE, BAD_MUTATOR, ABSENT, SIDE, NOT_NOW, TORN. */
uint32_t borvukhai_detach(uint32_t segments, uint32_t kib, uint32_t *mem, size_t length, uint32_t mutator);

/* A new record of so many pointers, all nil, and values, all 0, into root `to`. Refused SIZE, BAD_MUTATOR, ABSENT, SIDE, BAD_ROOT, TOO_BIG,
 * NO_ROOM, TORN. */
uint32_t borvukhai_make(uint32_t segments, uint32_t kib, uint32_t *mem, size_t length, uint32_t mutator, uint32_t to,
                        uint32_t pointers, uint32_t values);

/* Pointer `field` of the record in root `root` into root `to`. Refused SIZE, BAD_MUTATOR, ABSENT, SIDE, BAD_ROOT, NIL, FIELD, TORN. */
uint32_t borvukhai_load(uint32_t segments, uint32_t kib, uint32_t *mem, size_t length, uint32_t mutator, uint32_t to,
                        uint32_t root, uint32_t field);
/* Root `from` into pointer `field` of the record in root `root`. Refused SIZE, BAD_MUTATOR, ABSENT, SIDE, BAD_ROOT, NIL, FIELD, TORN. */
uint32_t borvukhai_store(uint32_t segments, uint32_t kib, uint32_t *mem, size_t length, uint32_t mutator, uint32_t root,
                         uint32_t field, uint32_t from);
/* `value` into value `field` of the record in root `root`. Refused SIZE, BAD_MUTATOR, ABSENT, SIDE, BAD_ROOT, NIL, FIELD, TORN. */
uint32_t borvukhai_put(uint32_t segments, uint32_t kib, uint32_t *mem, size_t length, uint32_t mutator, uint32_t root,
                       uint32_t field, uint32_t value);

/* Root `from` into root `to`. Refused SIZE, BAD_MUTATOR, ABSENT, SIDE, BAD_ROOT, TORN. */
uint32_t borvukhai_copy(uint32_t segments, uint32_t kib, uint32_t *mem, size_t length, uint32_t mutator, uint32_t to,
                        uint32_t from);
/* Nil into root `to`. Refused SIZE, BAD_MUTATOR, ABSENT, SIDE, BAD_ROOT, TORN. */
uint32_t borvukhai_clear(uint32_t segments, uint32_t kib, uint32_t *mem, size_t length, uint32_t mutator, uint32_t to);

/* A mutator that owes an acknowledgement of the handshake gives it; otherwise nothing changes. Each mutator that is inside calls it
 * between its own steps. Refused SIZE, BAD_MUTATOR, ABSENT, SIDE, TORN. */
uint32_t borvukhai_check(uint32_t segments, uint32_t kib, uint32_t *mem, size_t length, uint32_t mutator);
/* A check, then outside: the collector acknowledges for it while it waits. Refused SIZE, BAD_MUTATOR, ABSENT, SIDE, TORN. */
uint32_t borvukhai_leave(uint32_t segments, uint32_t kib, uint32_t *mem, size_t length, uint32_t mutator);
/* Inside again. Refused SIZE, BAD_MUTATOR, ABSENT, SIDE (it is inside), TORN. */
uint32_t borvukhai_enter(uint32_t segments, uint32_t kib, uint32_t *mem, size_t length, uint32_t mutator);

/* A cycle begins: every full and every part segment is condemned, and no make takes it before its sweep; held ones are
 * not. Where none is full or part it is a cycle over no segment: both handshakes and the marking are held as usual, the
 * first step in sweep answers done, and nothing is freed. Refused SIZE, NOT_NOW, TORN. */
uint32_t borvukhai_start(uint32_t segments, uint32_t kib, uint32_t *mem, size_t length);

/* The segments' records, six words each (BORVUKHAI_STATE_TAG to BORVUKHAI_STATE_HANDED_OUT), into `output` of
 * borvukhai_states_length words; the heap is not changed. The counts are copied whatever they are. Refused, the output
 * is unchanged. Refused SIZE, TORN. */
uint32_t borvukhai_states(uint32_t segments, uint32_t kib, const uint32_t *mem, size_t length, uint32_t *output,
                          size_t output_length);

/* The sheet, a table of the segments to print, into `output` of borvukhai_sheet_length bytes, all ASCII; the heap is not
 * changed. No NUL ends it: print so many bytes. Each segment, from 0 on, has a line of 51 characters and a line feed, as
 * this one of a part segment of class 12 with 3 of its 4 blocks in use:
 *
 *   103 12 P    3    1 ########################........
 *
 * The columns are the segment's number (3 characters), its class (2, -- where it is free), a letter (F free, P part, H
 * held, L full, C condemned), its blocks in use and its blocks not in use (4 each), and a bar of 32, of which the whole
 * part of 32 * in use / blocks is # and the rest dots. Numbers stand to the right, and one space between columns. A free
 * segment shows 0, 0 and dots. An empty line, one line feed, follows every 60th segment where another one comes.
 *
 * The blocks in use are the segment's two counts together. Over memory that fails the examination this library answers
 * TORN where a tag is over 4, or where a segment that is not free has a class that is none, or counts that together are
 * more than its blocks; there it promises no more than 0 or TORN. Refused, the output is unchanged. Refused SIZE, TORN. */
uint32_t borvukhai_sheet(uint32_t segments, uint32_t kib, const uint32_t *mem, size_t length, uint8_t *output,
                         size_t output_length);

/* ---- calls that answer 64 bits: a result above a refusal. Where borvukhai_refusal of the answer is 0, borvukhai_result is the result,
 * else it is 0 */

/* The value: value `field` of the record in root `root`. Refused SIZE, BAD_MUTATOR, ABSENT, SIDE, BAD_ROOT, NIL, FIELD, TORN. */
uint64_t borvukhai_get(uint32_t segments, uint32_t kib, const uint32_t *mem, size_t length, uint32_t mutator,
                       uint32_t root, uint32_t field);
/* 1 where the two roots are the same record or both nil, else 0. Refused SIZE, BAD_MUTATOR, ABSENT, SIDE, BAD_ROOT, TORN. */
uint64_t borvukhai_same(uint32_t segments, uint32_t kib, const uint32_t *mem, size_t length, uint32_t mutator,
                        uint32_t root, uint32_t other);
/* The counts of the record in root `root`: borvukhai_pointers and borvukhai_values. Refused SIZE, BAD_MUTATOR, ABSENT, SIDE, BAD_ROOT, NIL,
 * TORN. */
uint64_t borvukhai_shape(uint32_t segments, uint32_t kib, const uint32_t *mem, size_t length, uint32_t mutator,
                         uint32_t root);

/* One small step of the collector: borvukhai_step_kind says what it did. Refused SIZE, TORN. */
uint64_t borvukhai_step(uint32_t segments, uint32_t kib, uint32_t *mem, size_t length);

/* The phase. Refused SIZE, TORN. */
uint64_t borvukhai_phase(uint32_t segments, uint32_t kib, const uint32_t *mem, size_t length);
/* 1 where the memory is consistent, else 0, over memory of any content; the scratch, of borvukhai_scratch_length words, ends all 0.
 * Refused SIZE only, and then the scratch is unchanged. The result stands above the refusal, so consistent memory
 * answers 2^32, and torn memory answers 0: test it with borvukhai_is_sound below, never with == 0. */
uint64_t borvukhai_examine(uint32_t segments, uint32_t kib, const uint32_t *mem, size_t length, uint32_t *scratch,
                           size_t scratch_length);

/* ---- an answer of 64 bits taken apart */

/* 0, or the refusal. */
static inline uint32_t borvukhai_refusal(uint64_t answer) { return (uint32_t)(answer & 0xffffffffu); }
/* The result: of get the value, of same and examine 0 or 1, of phase the phase. */
static inline uint32_t borvukhai_result(uint64_t answer) { return (uint32_t)(answer >> 32); }
/* shape: the count of pointers, bits 48 to 63, and of values, bits 32 to 47. */
static inline uint32_t borvukhai_pointers(uint64_t answer) { return (uint32_t)(answer >> 48); }
static inline uint32_t borvukhai_values(uint64_t answer) { return (uint32_t)(answer >> 32 & 0xffffu); }
/* step: what it did, bits 32 to 39; of a waiting one the mutators waited for, of a swept one the segment, bits 40 to 47; of a swept one the
 * blocks that became free, bits 48 to 63. */
static inline uint32_t borvukhai_step_kind(uint64_t answer) { return (uint32_t)(answer >> 32 & 0xffu); }
static inline uint32_t borvukhai_step_waiting(uint64_t answer) { return (uint32_t)(answer >> 40 & 0xffu); }
static inline uint32_t borvukhai_step_segment(uint64_t answer) { return (uint32_t)(answer >> 40 & 0xffu); }
static inline uint32_t borvukhai_step_freed(uint64_t answer) { return (uint32_t)(answer >> 48); }

/* ---- the same calls with the refusal returned and the result written: where 0 is returned the result stands where the
 * pointers show; where a refusal is, nothing was written there */

/* 1 where the memory passes the examination, else 0, also where the count, the size or a length is refused. */
static inline int borvukhai_is_sound(uint32_t segments, uint32_t kib, const uint32_t *mem, size_t length,
                                     uint32_t *scratch, size_t scratch_length) {
    return borvukhai_examine(segments, kib, mem, length, scratch, scratch_length) == (uint64_t)1 << 32;
}

/* The result of an answer, where it is not refused. */
static inline uint32_t borvukhai_answer_to(uint64_t answer, uint32_t *result) {
    if (borvukhai_refusal(answer) == BORVUKHAI_OK) {
        *result = borvukhai_result(answer);
    }
    return borvukhai_refusal(answer);
}

/* get, the value; same, 0 or 1; phase, the phase. */
static inline uint32_t borvukhai_get_to(uint32_t segments, uint32_t kib, const uint32_t *mem, size_t length,
                                        uint32_t mutator, uint32_t root, uint32_t field, uint32_t *value) {
    return borvukhai_answer_to(borvukhai_get(segments, kib, mem, length, mutator, root, field), value);
}
static inline uint32_t borvukhai_same_to(uint32_t segments, uint32_t kib, const uint32_t *mem, size_t length,
                                         uint32_t mutator, uint32_t root, uint32_t other, uint32_t *same) {
    return borvukhai_answer_to(borvukhai_same(segments, kib, mem, length, mutator, root, other), same);
}
static inline uint32_t borvukhai_phase_to(uint32_t segments, uint32_t kib, const uint32_t *mem, size_t length,
                                          uint32_t *phase) {
    return borvukhai_answer_to(borvukhai_phase(segments, kib, mem, length), phase);
}

/* shape, both counts. */
static inline uint32_t borvukhai_shape_to(uint32_t segments, uint32_t kib, const uint32_t *mem, size_t length,
                                          uint32_t mutator, uint32_t root, uint32_t *pointers, uint32_t *values) {
    uint64_t answer = borvukhai_shape(segments, kib, mem, length, mutator, root);
    if (borvukhai_refusal(answer) == BORVUKHAI_OK) {
        *pointers = borvukhai_pointers(answer);
        *values = borvukhai_values(answer);
    }
    return borvukhai_refusal(answer);
}

/* step: what it did; a part that its kind does not have is 0. */
struct borvukhai_stepped {
    uint32_t kind;    /* BORVUKHAI_STEP_IDLE to BORVUKHAI_STEP_DONE */
    uint32_t waiting; /* of a waiting one, the mutators waited for */
    uint32_t segment; /* of a swept one, the segment */
    uint32_t freed;   /* of a swept one, the blocks that became free */
};
static inline uint32_t borvukhai_step_to(uint32_t segments, uint32_t kib, uint32_t *mem, size_t length,
                                         struct borvukhai_stepped *stepped) {
    uint64_t answer = borvukhai_step(segments, kib, mem, length);
    uint32_t swept = borvukhai_step_kind(answer) == BORVUKHAI_STEP_SWEPT;
    if (borvukhai_refusal(answer) == BORVUKHAI_OK) {
        stepped->kind = borvukhai_step_kind(answer);
        stepped->waiting = stepped->kind == BORVUKHAI_STEP_WAITING ? borvukhai_step_waiting(answer) : 0;
        stepped->segment = swept ? borvukhai_step_segment(answer) : 0;
        stepped->freed = swept ? borvukhai_step_freed(answer) : 0;
    }
    return borvukhai_refusal(answer);
}

/* ---- how long a cycle can be, for a bar that shows its progress
 *
 * After a start that is not refused, over memory that passes the examination and with no opening since, the steps that
 * are neither refused nor answered waiting, up to and including done, are at most B + C + 4: B is the number of blocks
 * in use when the phase became mark, C the number of segments that the start condemned. Looks at the states have both:
 * C one after the start, B one just after the second step that answers moved, which is the step that moves to mark.
 * Until then B is not known: it will be the blocks in use now and one for each make that is not refused meanwhile, and
 * no more than borvukhai_most_at_mark.
 *
 * `output` is what borvukhai_states wrote for so many segments of that size. Where the count or the size is none the
 * answer is 0, and no word is read. No sum wraps, whatever the words are; over memory that fails the examination it
 * bounds nothing. */

/* B, of a look where the phase became mark: the blocks in use, kept and handed out, of all segments. */
static inline uint64_t borvukhai_blocks_in_use(uint32_t segments, uint32_t kib, const uint32_t *output) {
    uint32_t at;
    uint64_t sum = 0;
    for (at = 0; at < BORVUKHAI_STATES_LENGTH(segments, kib); at += BORVUKHAI_STATE_WORDS) {
        sum += (uint64_t)output[at + BORVUKHAI_STATE_KEPT] + output[at + BORVUKHAI_STATE_HANDED_OUT];
    }
    return sum;
}

/* C, of a look between the start and the first segment that is swept: the condemned segments. */
static inline uint32_t borvukhai_condemned(uint32_t segments, uint32_t kib, const uint32_t *output) {
    uint32_t at, count = 0;
    for (at = 0; at < BORVUKHAI_STATES_LENGTH(segments, kib); at += BORVUKHAI_STATE_WORDS) {
        count += output[at + BORVUKHAI_STATE_TAG] == BORVUKHAI_SEGMENT_CONDEMNED;
    }
    return count;
}

/* The most that B can be when the phase next becomes mark, of a look in idle or in a handshake: of a condemned segment
 * its blocks in use, as no make takes it; of any other that is not free all its blocks; of a free one those of class 3,
 * 2,048 at 16 KiB and 4,096 at 32, as a make of any class may take it. */
static inline uint64_t borvukhai_most_at_mark(uint32_t segments, uint32_t kib, const uint32_t *output) {
    uint32_t at;
    uint64_t sum = 0;
    for (at = 0; at < BORVUKHAI_STATES_LENGTH(segments, kib); at += BORVUKHAI_STATE_WORDS) {
        const uint32_t *state = output + at;
        uint32_t tag = state[BORVUKHAI_STATE_TAG], number = state[BORVUKHAI_STATE_CLASS];
        if (tag == BORVUKHAI_SEGMENT_CONDEMNED) {
            sum += (uint64_t)state[BORVUKHAI_STATE_KEPT] + state[BORVUKHAI_STATE_HANDED_OUT];
        } else {
            sum += tag == BORVUKHAI_SEGMENT_FREE ? BORVUKHAI_BLOCKS(kib, 3u) : BORVUKHAI_BLOCKS(kib, number);
        }
    }
    return sum;
}

/* The bar's far end: B + C + 4. */
static inline uint64_t borvukhai_cycle_end(uint64_t blocks, uint32_t condemned) { return blocks + condemned + 4; }

#ifdef __cplusplus
}
#endif

#endif
