/* The same calls on every processor: a list that follows from one seed, by four mutators and the collector, with looks
 * and refusals among them; once with segments of 16 KiB and once with segments of 32. After each part of it, one line:
 * two hashes, of every answer so far and of the lent slice; and the makes, less the blocks that sweeps freed, are the
 * blocks in use by the counts of a look. Last comes the sheet of more segments than 60, by its hash. No C library. A
 * program that has this gives `say`, which writes a text, and calls `play`. It has 1.8 MB of static memory. */
#ifndef PLAY_H
#define PLAY_H

#include "borvukhai.h"

#define PLAY_SEGMENTS 16u
#define PLAY_WORDS BORVUKHAI_LENGTH(PLAY_SEGMENTS, play_kib)
#define PLAY_STATES BORVUKHAI_STATES_LENGTH(PLAY_SEGMENTS, play_kib)
#define PLAY_SCRATCH BORVUKHAI_SCRATCH_LENGTH(PLAY_SEGMENTS, play_kib)
#define PLAY_SHEET BORVUKHAI_SHEET_LENGTH(PLAY_SEGMENTS)
#define PLAY_HEAP PLAY_SEGMENTS, play_kib, play_memory, PLAY_WORDS
#ifndef PLAY_TURNS
#define PLAY_TURNS 2000000u
#endif
#define PLAY_PARTS 5u
/* The heap whose sheet has an empty line. */
#define PLAY_MANY 61u
#define PLAY_MANY_WORDS BORVUKHAI_LENGTH(PLAY_MANY, 16u)
#define PLAY_MANY_HEAP PLAY_MANY, 16u, play_memory, PLAY_MANY_WORDS

void say(const char *text);

static uint32_t play_memory[PLAY_MANY_WORDS]; /* more than PLAY_SEGMENTS have at 32 KiB */
static uint32_t play_output[BORVUKHAI_STATES_LENGTH(PLAY_SEGMENTS, 32u)];
static uint32_t play_scratch[BORVUKHAI_SCRATCH_LENGTH(PLAY_SEGMENTS, 32u)];
static uint32_t play_sheet[BORVUKHAI_SHEET_LENGTH(PLAY_MANY) / 4 + 1];
#define PLAY_BYTES ((uint8_t *)play_sheet + 1) /* the sheet, at an odd address */
static uint32_t play_kib, play_seed, play_makes, play_freed, play_cycles;
static uint64_t play_answers;
#define PLAY_EMPTY 0xcbf29ce484222325u /* the hash of no words */

/* Numbers by a xorshift. */
static uint32_t play_random(uint32_t below) {
    play_seed ^= play_seed << 13;
    play_seed ^= play_seed >> 17;
    play_seed ^= play_seed << 5;
    return play_seed % below;
}

/* FNV-1a over a byte, and over the four bytes of a word, the lowest first. */
static uint64_t play_hash_byte(uint64_t hash, uint32_t byte) { return (hash ^ byte) * 0x100000001b3u; }

static uint64_t play_hash(uint64_t hash, uint32_t word) {
    int byte;
    for (byte = 0; byte < 4; byte++) {
        hash = play_hash_byte(hash, word >> 8 * byte & 0xffu);
    }
    return hash;
}

static uint64_t play_hash_of(const uint32_t *words, size_t count) {
    uint64_t hash = PLAY_EMPTY;
    size_t i;
    for (i = 0; i < count; i++) {
        hash = play_hash(hash, words[i]);
    }
    return hash;
}

/* So many bytes of the sheet. */
static uint64_t play_hash_of_sheet(size_t length) {
    uint64_t hash = PLAY_EMPTY;
    size_t i;
    for (i = 0; i < length; i++) {
        hash = play_hash_byte(hash, PLAY_BYTES[i]);
    }
    return hash;
}

static void play_answer(uint64_t answer) {
    play_answers = play_hash(play_hash(play_answers, (uint32_t)answer), (uint32_t)(answer >> 32));
}

/* A make of a few fields mostly; now and then of a long record, or of one that is too big. */
static uint32_t play_make(uint32_t mutator) {
    uint32_t long_one = play_random(128) == 0;
    uint32_t pointers = play_random(long_one ? 2400 : 4), values = play_random(long_one ? 2400 : 9);
    uint32_t answer = borvukhai_make(PLAY_HEAP, mutator, play_random(17), pointers, values);
    play_makes += answer == BORVUKHAI_OK;
    return answer;
}

/* A call on records and roots. */
static uint64_t play_record(uint32_t mutator) {
    uint32_t a = play_random(16), b = play_random(16), field = play_random(4);
    switch (play_random(8)) {
    case 0:
        return borvukhai_load(PLAY_HEAP, mutator, a, b, field);
    case 1:
        return borvukhai_store(PLAY_HEAP, mutator, a, field, b);
    case 2:
        return borvukhai_put(PLAY_HEAP, mutator, a, field, play_random(0xffffffffu));
    case 3:
        return borvukhai_get(PLAY_HEAP, mutator, a, field);
    case 4:
        return borvukhai_copy(PLAY_HEAP, mutator, a, b);
    case 5:
        return borvukhai_clear(PLAY_HEAP, mutator, a);
    case 6:
        return borvukhai_same(PLAY_HEAP, mutator, a, b);
    default:
        return borvukhai_shape(PLAY_HEAP, mutator, a);
    }
}

/* A mutator comes or goes. */
static uint32_t play_coming(uint32_t mutator) {
    uint32_t parent = play_random(4), root = play_random(16);
    switch (play_random(5)) {
    case 0:
        return borvukhai_attach(PLAY_HEAP, mutator);
    case 1:
        return borvukhai_spawn(PLAY_HEAP, mutator, parent, root);
    case 2:
        return play_random(8) == 0 ? borvukhai_detach(PLAY_HEAP, mutator) : (uint32_t)BORVUKHAI_OK;
    case 3:
        return play_random(4) == 0 ? borvukhai_leave(PLAY_HEAP, mutator) : (uint32_t)BORVUKHAI_OK;
    default:
        return borvukhai_enter(PLAY_HEAP, mutator);
    }
}

/* A look: the states' words, the sheet's bytes, the phase, and rarely the examination. */
static void play_look(void) {
    play_answer(borvukhai_states(PLAY_HEAP, play_output, PLAY_STATES));
    play_answer(play_hash_of(play_output, PLAY_STATES));
    play_answer(borvukhai_sheet(PLAY_HEAP, PLAY_BYTES, PLAY_SHEET));
    play_answer(play_hash_of_sheet(PLAY_SHEET));
    play_answer(borvukhai_phase(PLAY_HEAP));
    if (play_random(64) == 0) {
        play_answer(borvukhai_examine(PLAY_HEAP, play_scratch, PLAY_SCRATCH));
    }
}

/* The collector's share of a turn. */
static void play_collect(void) {
    uint64_t answer = borvukhai_step(PLAY_HEAP);
    play_answer(answer);
    if (borvukhai_step_kind(answer) == BORVUKHAI_STEP_DONE) {
        play_cycles++;
    } else if (borvukhai_step_kind(answer) == BORVUKHAI_STEP_SWEPT) {
        play_freed += borvukhai_step_freed(answer);
    } else if (borvukhai_step_kind(answer) == BORVUKHAI_STEP_IDLE && play_random(32) == 0) {
        play_answer(borvukhai_start(PLAY_HEAP));
    }
}

static void play_turn(void) {
    uint32_t mutator = play_random(4), kind = play_random(256);
    if (kind < 2) {
        play_answer(play_coming(mutator));
    } else if (kind < 4) {
        play_look();
    } else if (kind < 80) {
        play_answer(play_make(mutator));
    } else {
        play_answer(play_record(mutator));
    }
    play_answer(borvukhai_check(PLAY_HEAP, mutator));
    play_collect();
}

/* A number's digits, base 10 or 16. */
static void play_say_number(uint64_t number, uint32_t base) {
    char digits[21];
    int at = 20;
    digits[20] = 0;
    do {
        digits[--at] = "0123456789abcdef"[number % base];
        number /= base;
    } while (number != 0);
    say(digits + at);
}

static void play_say_part(uint32_t turns) {
    play_say_number(play_kib, 10);
    say(" KiB, ");
    play_say_number(turns, 10);
    say(" turns, ");
    play_say_number(play_makes, 10);
    say(" makes, ");
    play_say_number(play_cycles, 10);
    say(" cycles: answers ");
    play_say_number(play_answers, 16);
    say(", image ");
    play_say_number(play_hash_of(play_memory, PLAY_WORDS), 16);
    say("\n");
}

/* The blocks in use, by the counts of a look. */
static uint32_t play_in_use(void) {
    uint32_t segment, sum = 0;
    borvukhai_states(PLAY_HEAP, play_output, PLAY_STATES);
    for (segment = 0; segment < PLAY_SEGMENTS; segment++) {
        const uint32_t *state = play_output + segment * BORVUKHAI_STATE_WORDS;
        sum += state[BORVUKHAI_STATE_KEPT] + state[BORVUKHAI_STATE_HANDED_OUT];
    }
    return sum;
}

/* The whole list at one segment size; 0 where the heap opens, the counts are right after each part, and the memory
 * passes the examination at the end. */
static int play_at(uint32_t kib) {
    uint32_t turn;
    int counted = 1;
    play_kib = kib;
    play_seed = 2463534242u;
    play_answers = PLAY_EMPTY;
    play_makes = play_freed = play_cycles = 0;
    if (borvukhai_open(PLAY_HEAP) != BORVUKHAI_OK) {
        return 1;
    }
    for (turn = 1; turn <= PLAY_TURNS; turn++) {
        play_turn();
        if (turn % (PLAY_TURNS / PLAY_PARTS) == 0) {
            play_say_part(turn);
            counted = counted && play_in_use() == play_makes - play_freed;
        }
    }
    return counted && borvukhai_is_sound(PLAY_HEAP, play_scratch, PLAY_SCRATCH) ? 0 : 1;
}

/* The sheet of 61 segments, with records of every class and an empty line; 0 where it is not refused, and an output
 * without room for that line is. */
static int play_many(void) {
    uint32_t fields, made, refused = borvukhai_open(PLAY_MANY_HEAP);
    size_t length = borvukhai_sheet_length(PLAY_MANY, 16u);
    refused = refused ? refused : borvukhai_attach(PLAY_MANY_HEAP, 0);
    for (fields = 1; fields <= 4095; fields += fields + 1) {
        for (made = 0; refused == BORVUKHAI_OK && made < 5; made++) {
            refused = borvukhai_make(PLAY_MANY_HEAP, 0, made, 0, fields);
        }
    }
    refused = refused ? refused : borvukhai_sheet(PLAY_MANY_HEAP, PLAY_BYTES, length);
    say("the sheet of ");
    play_say_number(PLAY_MANY, 10);
    say(" segments, ");
    play_say_number(length, 10);
    say(" bytes: ");
    play_say_number(play_hash_of_sheet(length), 16);
    say("\n");
    return refused || borvukhai_sheet(PLAY_MANY_HEAP, PLAY_BYTES, length - 1) != BORVUKHAI_SIZE;
}

static int play(void) {
    int small = play_at(16), large = play_at(32), many = play_many();
    return small || large || many;
}

#endif
