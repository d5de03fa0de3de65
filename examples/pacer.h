/* A pacer: so many steps of the collector after each make, and each cycle begun as late as that pace allows, so that it
 * finds the most to free. docs/PACING.md says why and when this holds.
 *
 * It looks at the segments' states now and then, whose counts say how many blocks are in use. So it has two bounds: the
 * makes that are certain to find room, in any order, by any of the mutators and of any class in play, and the steps
 * that a cycle begun now can take. A start condemns the part segments too, which are then no room before their sweep:
 * so the first bound is what the held and the free segments have. Once these makes times the pace are no more than the
 * steps, it starts a cycle. Every step of the heap goes through it, and it is told of every make.
 *
 * What the caller may read: `room`, so many next makes are certain to find room; and `kept`, which is 0 where the pace
 * cannot promise that a cycle ends before they are used up. Then makes may be refused BORVUKHAI_NO_ROOM: lend more
 * segments, take more steps, say by pacer_makers that fewer mutators make a class, or call pacer_finish. A detach makes
 * part what the mutator held: what it takes from both, the next look says, and no cycle starts before that look. */
#ifndef PACER_H
#define PACER_H

#include "borvukhai.h"

/* The classes of records. */
#define PACER_FIRST 3u
#define PACER_LAST 14u

struct pacer {
    uint32_t segments, kib, *mem, *output; /* the heap; an output of borvukhai_states_length words */
    size_t length;
    uint32_t steps;      /* at most so many after a make */
    uint32_t mutators;   /* attached at most; while inside, each checks at least once in so many makes */
    uint32_t makers[16]; /* how many of them make records of a class; 0 where it is not in play */
    uint32_t in_use[16]; /* blocks in use at the last look, by class */
    uint32_t room;       /* so many next makes of classes in play are certain to find room */
    uint32_t wait;       /* makes until the next look */
    int kept;            /* whether a cycle begun in time is certain to end before the room does */
    int running;         /* whether a cycle runs */
};

/* What the look says of the segments of one class. Open are those that a make may take a block of: held ones, and part
 * ones where no start comes before. */
struct pacer_class {
    uint32_t segments, held; /* how many there are, and how many of them mutators hold */
    uint32_t in_use, left;   /* blocks in use of them all, and those that the open ones have left */
    uint16_t most_left[32];  /* what an open one has left once every part one is taken, the 32 largest, falling */
};

/* The words that the last look wrote of a segment; BORVUKHAI_STATE_TAG and the others are places in them. */
static inline const uint32_t *pacer_state(const struct pacer *p, uint32_t segment) {
    return p->output + segment * BORVUKHAI_STATE_WORDS;
}

/* One more of the numbers that a segment can have left. */
static inline void pacer_insert(uint16_t *falling, uint32_t count, uint32_t left) {
    uint32_t at;
    for (at = 0; left != 0 && at < count; at++) {
        uint32_t here = falling[at];
        falling[at] = (uint16_t)(here < left ? left : here);
        left = here < left ? here : left;
    }
}

/* The blocks in use of a segment, by its two counts. Over torn memory these may be any numbers: then all at most. */
static inline uint32_t pacer_used(const uint32_t *state, uint32_t blocks) {
    uint32_t kept = state[BORVUKHAI_STATE_KEPT], handed_out = state[BORVUKHAI_STATE_HANDED_OUT];
    return kept < blocks && handed_out < blocks - kept ? kept + handed_out : blocks;
}

/* Of one segment: of a part one its taker uses a block. */
static inline void pacer_see(struct pacer_class *of, const uint32_t *state, uint32_t blocks, int parts) {
    uint32_t used = pacer_used(state, blocks), left = blocks - used;
    int held = state[BORVUKHAI_STATE_TAG] == BORVUKHAI_SEGMENT_HELD;
    of->segments += 1;
    of->held += held;
    of->in_use += used;
    if (left != 0 && (held || (parts && state[BORVUKHAI_STATE_TAG] == BORVUKHAI_SEGMENT_PART))) {
        of->left += left;
        pacer_insert(of->most_left, 32, left - !held);
    }
}

/* The segments of a class, the part ones open or not. */
static inline struct pacer_class pacer_class_of(struct pacer *p, uint32_t number, int parts) {
    struct pacer_class of = {0, 0, 0, 0, {0}};
    uint32_t s, *makers = &p->makers[number];
    for (s = 0; s < p->segments; s++) {
        const uint32_t *state = pacer_state(p, s);
        if (state[BORVUKHAI_STATE_TAG] != BORVUKHAI_SEGMENT_FREE && state[BORVUKHAI_STATE_CLASS] == number) {
            pacer_see(&of, state, BORVUKHAI_BLOCKS(p->kib, number), parts);
        }
    }
    p->in_use[number] = of.in_use;
    *makers = *makers == 0 && of.segments != 0 ? p->mutators : *makers;
    *makers = *makers < of.held ? (of.held < 32 ? of.held : 32) : *makers;
    return of;
}

/* The most free blocks that so many mutators can hold of a class while none of its segments is part. */
static inline uint32_t pacer_left(const struct pacer_class *of, uint32_t mutators) {
    uint32_t at, sum = 0;
    for (at = 0; at < mutators; at++) {
        sum += of->most_left[at];
    }
    return sum;
}

/* The segments in a state. */
static inline uint32_t pacer_segments(const struct pacer *p, uint32_t tag) {
    uint32_t s, count = 0;
    for (s = 0; s < p->segments; s++) {
        count += pacer_state(p, s)[BORVUKHAI_STATE_TAG] == tag;
    }
    return count;
}

/* What it costs, in makes, to take free segments: `cost[i]` for the one with the i-th least cost, `smallest` for each
 * beyond them. A mutator that holds none of a class takes one by one make. One that holds a segment fills it first. And
 * where all who make a class hold one that was free, another costs the blocks of a segment. */
struct pacer_costs {
    uint32_t count, smallest;
    uint16_t cost[32 * (PACER_LAST - PACER_FIRST + 1)]; /* of 32 mutators that make every class */
};

/* The costs of one class; the answer is the first, which is the least. */
static inline uint32_t pacer_add(struct pacer_costs *of, const struct pacer_class *class_of, uint32_t makers) {
    uint32_t turn;
    for (turn = makers; turn != 0; turn--) {
        uint32_t at = of->count++, cost = 1u + class_of->most_left[turn - 1];
        for (; at != 0 && of->cost[at - 1] > cost; at--) {
            of->cost[at] = of->cost[at - 1];
        }
        of->cost[at] = (uint16_t)cost;
    }
    return 1u + class_of->most_left[makers - 1];
}

/* The least makes that take so many free segments. */
static inline uint32_t pacer_sum(const struct pacer_costs *of, uint32_t segments) {
    uint32_t at, sum = 0;
    for (at = 0; at < segments; at++) {
        sum += at < of->count && of->cost[at] < of->smallest ? of->cost[at] : of->smallest;
    }
    return sum;
}

/* Makes that are certain to find room, part segments being open or not: the fewest after which one can be refused. That
 * one is of a mutator that holds no segment of the class, and no segment is part in the class or free. So the class's
 * own blocks are used but for what the others hold, and all free segments are taken, by others than this one. */
static inline uint32_t pacer_room(struct pacer *p, int parts) {
    uint32_t number, free = pacer_segments(p, BORVUKHAI_SEGMENT_FREE), room = 0xffffffffu, all, beside;
    uint32_t own[16] = {0}, first[16] = {0};
    struct pacer_costs costs;
    costs.count = 0, costs.smallest = 0;
    for (number = PACER_FIRST; number <= PACER_LAST; number++) {
        struct pacer_class of = pacer_class_of(p, number, parts);
        if (p->makers[number] != 0) {
            own[number] = of.left - pacer_left(&of, p->makers[number] - 1);
            first[number] = pacer_add(&costs, &of, p->makers[number]);
            costs.smallest = BORVUKHAI_BLOCKS(p->kib, number);
        }
    }
    all = pacer_sum(&costs, free), beside = pacer_sum(&costs, free + 1);
    for (number = PACER_FIRST; number <= PACER_LAST; number++) {
        uint32_t others = beside > first[number] ? beside - first[number] : 0;
        others = own[number] + (others > all ? others : all);
        room = p->makers[number] != 0 && others < room ? others : room;
    }
    return costs.count == 0 ? 0 : room;
}

/* Steps that a cycle begun now can take: one for each record, one for each segment, and six beside. */
static inline uint32_t pacer_work(const struct pacer *p) {
    uint32_t number, work = 2 * p->mutators + p->segments + 6;
    for (number = PACER_FIRST; number <= PACER_LAST; number++) {
        work += p->in_use[number];
    }
    return work;
}

/* The steps that the pace takes while this room lasts, once every mutator has acknowledged twice. */
static inline uint64_t pacer_ahead(const struct pacer *p, uint32_t room) {
    return room > 2 * p->mutators ? (uint64_t)(room - 2 * p->mutators) * p->steps : 0;
}

/* Where the room that a start leaves is too little for a cycle, but part segments have room too. A cycle that runs
 * already leaves them open. In idle, where nearly all of the room is theirs, makes pass first, which take them: the
 * next look is after as many as the other room has, as it cannot grow before, and a few. */
static inline void pacer_open_parts(struct pacer *p) {
    uint32_t room = pacer_room(p, 1);
    if (p->running) {
        p->kept = pacer_ahead(p, room) >= pacer_work(p);
    } else if (room / 6 > p->room) {
        p->wait = p->room + 3;
    }
}

/* The states, and how many makes may pass before the next look: each takes at most one of the room that a start leaves,
 * whoever makes, and adds one to the work. */
static inline uint32_t pacer_look(struct pacer *p) {
    size_t words = borvukhai_states_length(p->segments, p->kib);
    uint32_t work, refused = borvukhai_states(p->segments, p->kib, p->mem, p->length, p->output, words);
    uint64_t ahead;
    p->room = refused ? 0 : pacer_room(p, 0);
    work = pacer_work(p), ahead = pacer_ahead(p, p->room);
    p->kept = ahead >= work;
    p->wait = p->kept ? (uint32_t)((ahead - work) / (p->steps + 1)) : 0;
    if (!p->kept && !refused) {
        pacer_open_parts(p);
    }
    return refused;
}

/* A look, and the start of a cycle where no make may pass and a segment is full or part. */
static inline uint32_t pacer_start(struct pacer *p) {
    uint32_t refused = pacer_look(p);
    uint32_t due = pacer_segments(p, BORVUKHAI_SEGMENT_FULL) + pacer_segments(p, BORVUKHAI_SEGMENT_PART);
    if (refused != BORVUKHAI_OK || p->wait != 0 || due == 0) {
        return refused;
    }
    p->running = 1;
    return borvukhai_start(p->segments, p->kib, p->mem, p->length);
}

/* One step. Where the cycle is done a look follows. */
static inline uint32_t pacer_one(struct pacer *p, struct borvukhai_stepped *stepped) {
    uint32_t refused = borvukhai_step_to(p->segments, p->kib, p->mem, p->length, stepped);
    if (refused == BORVUKHAI_OK && (stepped->kind == BORVUKHAI_STEP_DONE || stepped->kind == BORVUKHAI_STEP_IDLE)) {
        p->running = 0;
        refused = pacer_look(p);
    }
    return refused;
}

/* The steps of one turn, fewer where the cycle ends, or waits for a mutator. */
static inline uint32_t pacer_step(struct pacer *p) {
    struct borvukhai_stepped stepped = {BORVUKHAI_STEP_MOVED, 0, 0, 0};
    uint32_t left = p->steps, refused = BORVUKHAI_OK;
    while (p->running && left-- != 0 && refused == BORVUKHAI_OK && stepped.kind != BORVUKHAI_STEP_WAITING) {
        refused = pacer_one(p, &stepped);
    }
    return refused;
}

/* After a make of a record of so many fields: at most p->steps steps. A class that was not in play is so from now on,
 * and the bounds are those of a new look. */
static inline uint32_t pacer_made(struct pacer *p, uint32_t fields) {
    uint32_t number = BORVUKHAI_CLASS_OF(fields), refused = BORVUKHAI_OK;
    p->room -= p->room != 0;
    if (p->makers[number] == 0) {
        refused = pacer_look(p);
        p->wait = 0;
    }
    if (p->running) {
        return refused ? refused : pacer_step(p);
    }
    if (p->wait > 1) {
        p->wait--;
        return refused;
    }
    return refused ? refused : pacer_start(p);
}

/* A whole cycle before the next make, or the rest of the one that runs: what helps where a make was refused
 * BORVUKHAI_NO_ROOM, and where `kept` is 0 in a small heap. Every mutator that is inside checks, so none may be in the
 * midst of a call. A cycle that ran already has not collected what became full or part since: still refused, call it
 * again. */
static inline uint32_t pacer_finish(struct pacer *p) {
    struct borvukhai_stepped stepped = {BORVUKHAI_STEP_MOVED, 0, 0, 0};
    uint32_t mutator, refused = BORVUKHAI_OK;
    uint32_t left = (BORVUKHAI_BLOCKS(p->kib, 3u) + 1) * p->segments + 6; /* more are of torn memory */
    if (!p->running) {
        refused = pacer_look(p);
        refused = refused ? refused : borvukhai_start(p->segments, p->kib, p->mem, p->length);
        p->running = refused == BORVUKHAI_OK;
    }
    while (p->running && refused == BORVUKHAI_OK) {
        refused = left-- == 0 ? BORVUKHAI_TORN : BORVUKHAI_OK;
        for (mutator = 0; stepped.kind == BORVUKHAI_STEP_WAITING && mutator < 32; mutator++) {
            borvukhai_check(p->segments, p->kib, p->mem, p->length, mutator); /* refused where absent or outside */
        }
        refused = refused ? refused : pacer_one(p, &stepped);
    }
    return refused;
}

/* So many mutators make records of so many fields. Before the first of them, it puts the class in play, so that already
 * that make is in the bound; and where fewer make a class than are attached, the bound is less strict. */
static inline uint32_t pacer_makers(struct pacer *p, uint32_t fields, uint32_t mutators) {
    p->makers[BORVUKHAI_CLASS_OF(fields)] = mutators > 32 ? 32 : mutators;
    return pacer_look(p);
}

/* A pacer of a heap that was opened, or that memory holds already, in a cycle or not; `segments` and `kib` are those of
 * the opening. `mutators`: so many are attached at most. */
static inline uint32_t pacer_of(struct pacer *p, uint32_t segments, uint32_t kib, uint32_t *mem, uint32_t *output,
                                uint32_t steps, uint32_t mutators) {
    uint32_t number, phase = BORVUKHAI_IDLE, refused, looked;
    p->segments = segments, p->kib = kib, p->mem = mem, p->output = output, p->length = borvukhai_length(segments, kib);
    p->steps = steps, p->mutators = mutators > 32 ? 32 : mutators == 0 ? 1 : mutators;
    for (number = 0; number < 16; number++) {
        p->in_use[number] = p->makers[number] = 0;
    }
    refused = borvukhai_phase_to(segments, kib, mem, p->length, &phase);
    p->running = phase != BORVUKHAI_IDLE;
    looked = pacer_look(p);
    return refused ? refused : looked;
}

#endif
