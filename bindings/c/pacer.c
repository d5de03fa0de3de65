/* The pacer of examples/pacer.h under several mutators and classes, by several seeds and sizes of heap and both segment
 * sizes: no make is refused BORVUKHAI_NO_ROOM while it says that room is certain, nor while it says that the pace keeps
 * the heap in room. Half of the makes are random; the other half are of a mutator that holds no segment of the class,
 * so that as many segments as can be are held. And acts of changing classes, whose makes are never refused. It prints a
 * line for each mix. */
#include "../../examples/pacer.h"

#include <stdio.h>

#define MOST 40u
#define STATES BORVUKHAI_STATES_LENGTH(MOST, 32u)
static uint32_t kib, memory[BORVUKHAI_LENGTH(MOST, 32u)], output[STATES], states[STATES];
#define HEAP mix->segments, kib, memory, borvukhai_length(mix->segments, kib)

struct mix {
    const char *name;
    uint32_t segments, steps, mutators, classes;
    uint32_t values[3]; /* of the records, with one pointer */
    uint32_t apart;     /* whether mutator k makes class k only, and the pacer is told so */
    uint32_t often;     /* at least so many of 1,000 makes find the pace kept */
    uint32_t alone;     /* whether a record keeps no other, so that the roots' own are alive and no more */
};

static const struct mix mixes[] = {
    {"2 segments, 2 mutators, 2 classes", 2, 8, 2, 2, {1, 5, 0}, 0, 0, 0},
    {"8 segments, 1 mutator, 3 classes", 8, 64, 1, 3, {6, 14, 30}, 0, 950, 0},
    {"10 segments, 2 mutators, 3 classes", 10, 64, 2, 3, {1, 5, 12}, 0, 800, 0},
    {"16 segments, 2 mutators, 3 classes", 16, 64, 2, 3, {1, 5, 12}, 0, 950, 0},
    {"24 segments, 4 mutators, 3 classes", 24, 256, 4, 3, {2, 6, 40}, 0, 500, 0},
    {"24 segments, 3 mutators, a class each", 24, 64, 3, 3, {2, 6, 14}, 1, 950, 0},
    {"6 segments, 3 mutators, a class each", 6, 256, 3, 3, {6, 14, 60}, 1, 0, 0},
    {"12 segments, 1 mutator, classes 13 and 14", 12, 16, 1, 2, {1500, 3000, 0}, 0, 0, 1},
    {"24 segments, 1 mutator, classes 13 and 14", 24, 16, 1, 2, {1500, 3000, 0}, 0, 700, 1},
    {"32 segments, 2 mutators, classes 13 and 14", 32, 64, 2, 2, {1500, 3000, 0}, 0, 150, 1},
    {"40 segments, 2 mutators, classes 5, 13 and 14", 40, 64, 2, 3, {6, 1500, 3000}, 0, 500, 1},
};

static uint32_t seed, makes, refusals, kept, lies;
static struct pacer pacer;

static uint32_t any(uint32_t below) {
    seed ^= seed << 13;
    seed ^= seed >> 17;
    seed ^= seed << 5;
    return seed % below;
}

static int holds(const struct mix *mix, uint32_t mutator, uint32_t number) {
    uint32_t s;
    for (s = 0; s < mix->segments; s++) {
        const uint32_t *state = states + s * BORVUKHAI_STATE_WORDS;
        if (state[BORVUKHAI_STATE_TAG] == BORVUKHAI_SEGMENT_HELD && state[BORVUKHAI_STATE_CLASS] == number &&
            state[BORVUKHAI_STATE_MUTATOR] == mutator) {
            return 1;
        }
    }
    return 0;
}

/* Who makes which class next: one that holds no segment of it, where there is one and the dice say so. */
static void choose(const struct mix *mix, uint32_t *mutator, uint32_t *values) {
    uint32_t turn, tries = any(2) ? 12 : 1;
    borvukhai_states(HEAP, states, borvukhai_states_length(mix->segments, kib));
    for (turn = 0; turn < tries; turn++) {
        *mutator = any(mix->mutators);
        *values = mix->values[mix->apart ? *mutator : any(mix->classes)];
        if (!holds(mix, *mutator, BORVUKHAI_CLASS_OF(1 + *values))) {
            break;
        }
    }
}

/* A make refused: one cycle to its end, and one more, help; or the mutator gives up all that it has. */
static void refused_one(const struct mix *mix, uint32_t mutator) {
    uint32_t root;
    refusals++;
    for (root = 0; any(4) == 0 && root < 16; root++) {
        borvukhai_clear(HEAP, mutator, root);
    }
    pacer_finish(&pacer);
}

/* A make into a root; the new record keeps the old one, or it is dropped with all behind it. */
static uint32_t turn(const struct mix *mix) {
    uint32_t mutator, values, other, refused, root = 1 + any(15);
    int sure, room;
    choose(mix, &mutator, &values);
    room = pacer.room != 0 && pacer.makers[BORVUKHAI_CLASS_OF(1 + values)] != 0;
    sure = pacer.kept && pacer.makers[BORVUKHAI_CLASS_OF(1 + values)] != 0;
    refused = borvukhai_make(HEAP, mutator, 0, 1, values);
    makes++;
    kept += (uint32_t)sure;
    if (refused == BORVUKHAI_NO_ROOM) {
        lies += (uint32_t)(room || sure);
        refused_one(mix, mutator);
        return BORVUKHAI_OK;
    }
    refused = refused || mix->alone || any(16) == 0 ? refused : borvukhai_store(HEAP, mutator, 0, 0, root);
    refused = refused ? refused : borvukhai_copy(HEAP, mutator, root, 0);
    for (other = 0; !refused && other < mix->mutators; other++) {
        refused = borvukhai_check(HEAP, other);
    }
    return refused ? refused : pacer_made(&pacer, 1 + values);
}

/* A mutator goes, and its number comes again; in a handshake neither may. */
static uint32_t change(const struct mix *mix) {
    uint32_t mutator = any(mix->mutators), refused = borvukhai_detach(HEAP, mutator);
    refused = refused ? refused : borvukhai_attach(HEAP, mutator);
    return refused == BORVUKHAI_NOT_NOW ? 0 : refused;
}

static uint32_t play(const struct mix *mix, uint32_t turns) {
    uint32_t number, refused = borvukhai_open(HEAP);
    for (number = 0; !refused && number < mix->mutators; number++) {
        refused = borvukhai_attach(HEAP, number);
    }
    refused = refused ? refused : pacer_of(&pacer, mix->segments, kib, memory, output, mix->steps, mix->mutators);
    for (number = 0; !refused && mix->apart && number < mix->mutators; number++) {
        refused = pacer_makers(&pacer, 1 + mix->values[number], 1);
    }
    while (!refused && turns-- != 0) {
        refused = any(5000) == 0 ? change(mix) : turn(mix);
    }
    return refused;
}

/* The shortest case: mutator 0 holds both segments, so mutator 1 finds none, and the pacer promises none. */
static int shortest(void) {
    const struct mix *mix = &mixes[0];
    uint32_t refused = borvukhai_open(HEAP) | borvukhai_attach(HEAP, 0) | borvukhai_attach(HEAP, 1);
    refused |= pacer_of(&pacer, 2, kib, memory, output, 8, 2);
    refused |= borvukhai_make(HEAP, 0, 0, 1, 1) | pacer_made(&pacer, 2);
    refused |= borvukhai_make(HEAP, 0, 1, 1, 5) | pacer_made(&pacer, 6);
    return refused == BORVUKHAI_OK && pacer.room == 0 && !pacer.kept &&
           borvukhai_make(HEAP, 1, 0, 1, 1) == BORVUKHAI_NO_ROOM;
}

/* The classes of the fewest blocks, in two segments: as many makes as the pacer says find room, the first of another
 * class, and the next finds none. */
static int exact(uint32_t fields, uint32_t others, uint32_t wanted) {
    const struct mix *mix = &mixes[0];
    uint32_t made, refused = borvukhai_open(HEAP) | borvukhai_attach(HEAP, 0);
    refused |= pacer_of(&pacer, 2, kib, memory, output, 8, 1);
    refused |= pacer_makers(&pacer, fields, 1) | pacer_makers(&pacer, others, 1);
    for (made = 0; made < pacer.room; made++) {
        refused |= borvukhai_make(HEAP, 0, 0, 1, (made == 0 ? others : fields) - 1);
    }
    return refused == BORVUKHAI_OK && made == wanted && borvukhai_make(HEAP, 0, 0, 1, fields - 1) == BORVUKHAI_NO_ROOM;
}

/* 32 mutators that make every class: each of the segments can be taken by one make, and then the next finds none. */
static int widest(void) {
    const struct mix *mix = &mixes[4];
    uint32_t number, refused = borvukhai_open(HEAP);
    for (number = 0; number < 32; number++) {
        refused |= borvukhai_attach(HEAP, number);
    }
    refused |= pacer_of(&pacer, mix->segments, kib, memory, output, 8, 32);
    for (number = PACER_FIRST; number <= PACER_LAST; number++) {
        refused |= pacer_makers(&pacer, (1u << number) / 4 - 1, 32);
    }
    for (number = 0; number < mix->segments; number++) {
        refused |= borvukhai_make(HEAP, number, 0, 1, 0);
    }
    return refused == BORVUKHAI_OK && pacer.room == mix->segments &&
           borvukhai_make(HEAP, 31, 0, 1, 0) == BORVUKHAI_NO_ROOM;
}

/* A turn of an act: a make, and a check. Its root drops a record that was made 16 turns before. */
static uint32_t act_turn(const struct mix *mix, uint32_t fields, uint32_t at) {
    uint32_t refused = borvukhai_make(HEAP, 0, at % 16, 0, fields);
    makes++;
    kept += (uint32_t)pacer.kept;
    if (refused == BORVUKHAI_NO_ROOM) {
        refusals++;
        return pacer_finish(&pacer);
    }
    refused = refused ? refused : borvukhai_check(HEAP, 0);
    return refused ? refused : pacer_made(&pacer, fields);
}

/* The end of an act: its mutator goes, once no handshake runs. What it held is part, and all in it is dead. */
static uint32_t act_ends(const struct mix *mix) {
    uint32_t refused = borvukhai_detach(HEAP, 0);
    while (refused == BORVUKHAI_NOT_NOW) {
        refused = borvukhai_check(HEAP, 0);
        refused = refused ? refused : pacer_step(&pacer);
        refused = refused ? refused : borvukhai_detach(HEAP, 0);
    }
    return refused;
}

/* A venue plays long chases after short ones: 400 acts, each with a mutator that makes one class, of 3 to 13 in turn,
 * one and a half segments of it. A part segment of each class that no act makes for ten acts would fill the heap. */
static int acts(void) {
    static const struct mix venue = {"acts of changing classes, 6 segments", 6, 64, 1, 1, {0, 0, 0}, 0, 0, 0};
    const struct mix *mix = &venue;
    uint32_t act, at, number, refused = borvukhai_open(HEAP);
    makes = refusals = kept = 0;
    refused = refused ? refused : pacer_of(&pacer, mix->segments, kib, memory, output, mix->steps, mix->mutators);
    for (act = 0; !refused && act < 400; act++) {
        number = PACER_FIRST + act * 7 % 11;
        refused = borvukhai_attach(HEAP, 0);
        for (at = 0; !refused && at < BORVUKHAI_BLOCKS(kib, number) * 3 / 2; at++) {
            refused = act_turn(mix, (1u << number) / 4 - 1, at);
        }
        refused = refused ? refused : act_ends(mix);
    }
    printf("%s: %u makes, %u refused; the pace kept at %u\n", mix->name, (unsigned)makes, (unsigned)refusals,
           (unsigned)kept);
    return refused == BORVUKHAI_OK && refusals == 0;
}

/* Class 13 has two blocks at 16 KiB, four at 32; class 14 one, and two. */
static int exact_all(void) {
    return kib == 32 ? exact(2047, 2047, 8) && exact(4095, 4095, 4) && exact(4095, 2047, 3)
                     : exact(2047, 2047, 4) && exact(4095, 4095, 2) && exact(4095, 2047, 2);
}

/* Every case and mix at one size. */
static int at_size(uint32_t size) {
    uint32_t at, number;
    int well;
    kib = size;
    printf("%u KiB\n", (unsigned)kib);
    well = shortest() && exact_all() && widest() && acts();
    for (at = 0; at < sizeof mixes / sizeof mixes[0]; at++) {
        makes = refusals = kept = lies = 0;
        for (number = 1; number <= 5; number++) {
            seed = 2463534242u + 77u * number;
            well = play(&mixes[at], 40000) == BORVUKHAI_OK && well;
        }
        printf("%s: %u makes, %u refused, %u of them while room was certain; the pace kept at %u\n", mixes[at].name,
               (unsigned)makes, (unsigned)refusals, (unsigned)lies, (unsigned)kept);
        well = well && lies == 0 && kept >= makes / 1000 * mixes[at].often;
    }
    return well;
}

int main(void) {
    int small = at_size(16), large = at_size(32);
    return small && large ? 0 : 1;
}
