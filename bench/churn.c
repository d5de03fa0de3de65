/* The churn workload on the heap: the collector starts after 5/16 of the heap's blocks were made, and takes eight steps after
 * each make until it is done. A make that finds no room is an error: the pace is to be enough. */
#include "build.h"
#include "churn.h"

#define HEAD 0     /* the root that reaches the live set */
#define NEW 1      /* of the live record in the making */
#define RECENT 2   /* to 13, live records that new ones may point to; then the last eight short-lived ones in 2 to 9 */
#define STEPS 8

static void make_live(struct heap *h, const struct churn *c, u64 *random) {
    MUST(HEAP(make)(OVER(h), 0, NEW, c->pointers, c->values), 0);
    MUST(HEAP(store)(OVER(h), 0, NEW, 0, HEAD), 0);
    for (u32 field = 1; field < c->pointers; field++) MUST(HEAP(store)(OVER(h), 0, NEW, field, RECENT + below(random, 12)), 0);
    MUST(HEAP(copy)(OVER(h), 0, RECENT + below(random, 12), NEW), 0);
    MUST(HEAP(copy)(OVER(h), 0, HEAD, NEW), 0);
}

/* One step of the collector; answers whether the cycle is over. */
static int step_once(struct heap *h) {
    u64 answer = HEAP(step)(OVER(h));
    if (borvukhai_refusal(answer) != 0) wrong("step", answer, 0, __FILE__, __LINE__);
    return borvukhai_step_kind(answer) == BORVUKHAI_STEP_DONE;
}

static void build_live(struct heap *h, const struct churn *c) {
    u64 random = SEED;
    for (u32 i = 0; i < c->live; i++) {
        make_live(h, c, &random);
        if (i % 4 < 3) MUST(HEAP(make)(OVER(h), 0, NEW, c->pointers, c->values), 0);
    }
    for (u32 root = NEW; root < 16; root++) MUST(HEAP(clear)(OVER(h), 0, root), 0);
    MUST(HEAP(start)(OVER(h)), 0);
    while (!step_once(h)) MUST(HEAP(check)(OVER(h), 0), 0);
}

static void churn(struct heap *h, struct churn *c) {
    u32 since = 0, running = 0;
    for (u32 i = 0; i < c->makes; i++, since++) {
        TIMED(c, MUST(HEAP(make)(OVER(h), 0, RECENT + i % 8, c->pointers, c->values), 0));
        if (!running && since >= c->makes * 5 / 32) {
            TIMED(c, MUST(HEAP(start)(OVER(h)), 0));
            running = 1;
        }
        if (!running) continue;
        TIMED(c, MUST(HEAP(check)(OVER(h), 0), 0));
        for (u32 s = 0; s < STEPS && running; s++) TIMED(c, running = !step_once(h));
        if (!running) since = 0;
    }
}

static void churn_run(struct heap *h, struct churn *c, const char *path) {
    build_live(h, c);
    u64 begin = now_working();
    churn(h, c);
    if (path == NULL) churn_report_total(c, begin);
    else churn_report_calls(c, path);
}

/* Makes alone: an empty heap filled, the second time after its memory has been touched. */
static void churn_fill(struct heap *h, struct churn *c) {
    build_dead(h, c->pointers, c->values);
    heap_reopen(h);
    u64 begin = now_working();
    u32 made = build_dead(h, c->pointers, c->values);
    printf("%.3f\n", (double)(now_working() - begin) / made);
}

/* What the machine adds: about so many empty calls as a run has. */
static void churn_nothing(struct churn *c, const char *path) {
    for (u32 i = 0; i < 3 * c->makes; i++) TIMED(c, (void)0);
    churn_report_calls(c, path);
}

int main(int argc, char **argv) {
    struct churn c = churn_read(argc, argv);
    struct heap h = heap_with_mutator(c.segments);
    const char *path = argc > 5 ? argv[5] : NULL;
    if (strcmp(argv[4], "fill") == 0) churn_fill(&h, &c);
    else if (strcmp(argv[4], "nothing") == 0) churn_nothing(&c, path);
    else churn_run(&h, &c, path);
    heap_close(&h);
    return 0;
}
