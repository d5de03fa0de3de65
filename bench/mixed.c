/* The longest call of each kind, by time, over a mixed run: 32 mutators make every call at random over 256 segments, with
 * records of every class, and the collector steps after each of their calls. The run is played again and again; a call's
 * length is the least that it took, so that what else the machine does falls away. Prints each kind's longest call. */
#include "clock.h"
#include "heap.h"

#define CALLS 400000
#define TURNS 9

enum kind { MAKE, LOAD, STORE, PUT, GET, COPY, CLEAR, SAME, SHAPE, CHECK, LEAVE, ENTER, ATTACH, SPAWN, DETACH, START, HANDSHAKE, MARK, SWEEP, DONE, KINDS };
static const char *const names[KINDS] = {"make", "load", "store", "put", "get", "copy", "clear", "same", "shape", "check", "leave", "enter", "attach", "spawn", "detach", "start", "step: handshake", "step: mark", "step: sweep", "step: done or idle"};
static const u32 weights[START] = {200, 180, 160, 60, 60, 50, 60, 20, 20, 130, 15, 30, 5, 5, 5};

static struct { u32 length; u32 kind; } calls[2 * CALLS];
static u32 count, turn;
static u64 random_state, sum;

/* The call that began at `begin` has ended. */
static u64 ended(u64 begin, u32 kind, u64 answer) {
    u64 length = now() - begin;
    if (kind == HANDSHAKE) { /* a step: its answer says of what kind */
        u32 did = borvukhai_step_kind(answer);
        if (did == BORVUKHAI_STEP_TRACED) kind = MARK;
        if (did == BORVUKHAI_STEP_SWEPT) kind = SWEEP;
        if (did == BORVUKHAI_STEP_DONE || did == BORVUKHAI_STEP_IDLE) kind = DONE;
    }
    if (turn == 0 || length < calls[count].length) calls[count].length = (u32)length;
    calls[count++].kind = kind;
    sum = sum * 31 + answer;
    return answer;
}
#define AT(kind, call) (begin = now(), ended(begin, kind, call))

static u32 pick_kind(void) {
    u32 r = below(&random_state, 1000), kind = 0;
    while (r >= weights[kind]) r -= weights[kind++];
    return kind;
}

static void call_make(struct heap *h, u32 m) {
    u32 fields = (2u << below(&random_state, 12)) - 1;
    u32 pointers = below(&random_state, fields + 1);
    u64 begin;
    AT(MAKE, HEAP(make)(OVER(h), m, below(&random_state, 16), pointers, fields - pointers));
}

static void call_mutator(struct heap *h, u32 kind, u32 m) {
    u32 a = below(&random_state, 16), b = below(&random_state, 16), field = below(&random_state, below(&random_state, 8) ? 4 : 4095);
    u64 begin;
    switch (kind) {
    case MAKE: call_make(h, m); break;
    case LOAD: AT(LOAD, HEAP(load)(OVER(h), m, a, b, field)); break;
    case STORE: AT(STORE, HEAP(store)(OVER(h), m, a, field, b)); break;
    case PUT: AT(PUT, HEAP(put)(OVER(h), m, a, field, count)); break;
    case GET: AT(GET, HEAP(get)(OVER(h), m, a, field)); break;
    case COPY: AT(COPY, HEAP(copy)(OVER(h), m, a, b)); break;
    case CLEAR: AT(CLEAR, HEAP(clear)(OVER(h), m, a)); break;
    case SAME: AT(SAME, HEAP(same)(OVER(h), m, a, b)); break;
    case SHAPE: AT(SHAPE, HEAP(shape)(OVER(h), m, a)); break;
    case CHECK: AT(CHECK, HEAP(check)(OVER(h), m)); break;
    case LEAVE: AT(LEAVE, HEAP(leave)(OVER(h), m)); break;
    case ENTER: AT(ENTER, HEAP(enter)(OVER(h), m)); break;
    case ATTACH: AT(ATTACH, HEAP(attach)(OVER(h), m)); break;
    case SPAWN: AT(SPAWN, HEAP(spawn)(OVER(h), m, below(&random_state, 32), a)); break;
    default: AT(DETACH, HEAP(detach)(OVER(h), m)); break;
    }
}

/* The whole run; the collector starts as soon as it is idle. */
static void play(struct heap *h) {
    int running = 0;
    u64 begin;
    count = 0, sum = 0, random_state = SEED;
    MUST(HEAP(open)(OVER(h)), 0);
    for (u32 m = 0; m < 32; m++) MUST(HEAP(attach)(OVER(h), m), 0);
    for (u32 i = 0; i < CALLS; i++) {
        call_mutator(h, pick_kind(), below(&random_state, 32));
        if (running) running = borvukhai_step_kind(AT(HANDSHAKE, HEAP(step)(OVER(h)))) != BORVUKHAI_STEP_DONE;
        else running = AT(START, HEAP(start)(OVER(h))) == 0;
    }
}

int main(void) {
    u32 longest[KINDS] = {0}, often[KINDS] = {0};
    struct heap h = heap_open(256);
    for (turn = 0; turn < TURNS; turn++) play(&h);
    for (u32 i = 0; i < count; i++) {
        u32 kind = calls[i].kind;
        often[kind]++;
        if (calls[i].length > longest[kind]) longest[kind] = calls[i].length;
    }
    for (u32 kind = 0; kind < KINDS; kind++) printf("%s\t%u\t%u\n", names[kind], longest[kind], often[kind]);
    printf("answers\t%llx\n", (unsigned long long)sum);
    heap_close(&h);
    return 0;
}
