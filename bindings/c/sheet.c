/* The sheet, at both segment sizes: each byte of it against lines that are written here by hand, against lines reckoned
 * from a look at the states, and against lines reckoned from the memory's own words, where a block is in use that lies
 * before the place or has the bit 1 (document 01). Opened heaps of 1 to 256 segments; every number of blocks in use of
 * every class; all five states; lengths that are refused; torn words, over which it is refused exactly where the header
 * says so; and an output at any address. The bytes around the output stay, those of a refused one too, and so does the
 * heap. It prints a line for each part and size, and says on the error output what was expected where something else
 * came. */
#include "borvukhai.h"

#include <stdio.h>
#include <string.h>

#define FIRST 3u
#define LAST 14u
#define CLASSES (LAST - FIRST + 1)
#define MOST 256u /* segments */
#define MANY 0xffffffffu
#define LINE 52u   /* the bytes of a line, its line feed among them */
#define AROUND 16u /* bytes before the output and behind it */
#define BLANK 0x5a /* no character of a sheet */

static uint32_t segments, kib;
static uint32_t memory[BORVUKHAI_LENGTH(MOST, 32u)];
static uint32_t before[BORVUKHAI_LENGTH(MOST, 32u)];
static uint32_t output[BORVUKHAI_STATES_LENGTH(MOST, 32u)];
static uint32_t scratch[BORVUKHAI_SCRATCH_LENGTH(MOST, 32u)];
static uint8_t lent[AROUND + BORVUKHAI_SHEET_LENGTH(MOST) + AROUND]; /* the sheet and the bytes around it */
static uint8_t wanted[AROUND + BORVUKHAI_SHEET_LENGTH(MOST) + AROUND];
static size_t from = AROUND; /* where in them the output begins */
#define HEAP segments, kib, memory, BORVUKHAI_LENGTH(segments, kib)
#define SHEET BORVUKHAI_SHEET_LENGTH(segments)

/* The blocks of a class by document 01's table and request No. 2's two classes; at 32 KiB each has twice as many. */
static uint32_t blocks(uint32_t class_) {
    static const uint32_t of[CLASSES] = {2048, 1024, 512, 256, 128, 64, 32, 16, 8, 4, 2, 1};
    return (kib == 32 ? 2 : 1) * of[class_ - FIRST];
}

/* The class that has so many blocks. */
static uint32_t with(uint32_t count) {
    uint32_t class_ = FIRST;
    while (blocks(class_) != count) {
        class_++;
    }
    return class_;
}

static int is_class(uint32_t number) { return FIRST <= number && number <= LAST; }

static int checks;
static int failures;

static void expect(const char *what, uint32_t which, uint64_t got, uint64_t right) {
    checks++;
    if (got != right) {
        fprintf(stderr, "%s, %lu: %llu, expected %llu\n", what, (unsigned long)which, (unsigned long long)got,
                (unsigned long long)right);
        failures++;
    }
}

static void ok(const char *what, uint32_t answer) { expect(what, 0, answer, BORVUKHAI_OK); }

/* A heap of so many segments with mutator 0 inside, in memory that was not 0. */
static void opened(uint32_t count) {
    segments = count;
    memset(memory, 0xa5, BORVUKHAI_LENGTH(segments, kib) * sizeof memory[0]);
    ok("open", borvukhai_open(HEAP));
    ok("attach", borvukhai_attach(HEAP, 0));
}

/* The most fields of a record of a class. */
static uint32_t most_of(uint32_t class_) { return (1u << class_) / 4 - 1; }

static uint32_t make(uint32_t mutator, uint32_t to, uint32_t class_) {
    return borvukhai_make(HEAP, mutator, to, 0, most_of(class_));
}

/* So many makes of a class by a mutator, into its roots from 0 on. */
static void makes(uint32_t mutator, uint32_t class_, uint32_t count) {
    uint32_t root;
    for (root = 0; root < count; root++) {
        ok("make", make(mutator, root % 16, class_));
    }
}

/* The heap as it is, to be found again by `kept`. */
static void keep(void) { memcpy(before, memory, BORVUKHAI_LENGTH(segments, kib) * sizeof memory[0]); }

static void kept(const char *what) {
    size_t bytes = BORVUKHAI_LENGTH(segments, kib) * sizeof memory[0];
    expect(what, segments, memcmp(before, memory, bytes) == 0, 1);
}

/* The word `at` of a segment's record in the memory, where docs/LAYOUT.md puts it. */
static uint32_t *stored(uint32_t s, uint32_t at) {
    return memory + 1040 + 256 * kib * segments + s * BORVUKHAI_STATE_WORDS + at;
}

/* Bit `block` of level 0 of a segment's bitmap there. */
static uint32_t bit(uint32_t s, uint32_t block) {
    const uint32_t *bitmap = memory + 1053 + (256 * kib + 19) * segments + s * (kib == 32 ? 133 : 67);
    return bitmap[block / 32] >> block % 32 & 1;
}

/* The blocks in use, by the place and the bits. */
static uint32_t in_use(uint32_t s) {
    uint32_t block, count = 0;
    for (block = 0; block < blocks(*stored(s, BORVUKHAI_STATE_CLASS)); block++) {
        count += block < *stored(s, BORVUKHAI_STATE_PLACE) || bit(s, block);
    }
    return count;
}

/* Where the line of a segment begins in the output: an empty line stands before segments 60, 120, 180 and 240. */
static size_t line_at(uint32_t s) { return LINE * s + s / 60; }

/* No byte of a sheet is in the output, nor is one wanted there. */
static void blank(void) {
    memset(lent, BLANK, SHEET + 2 * AROUND);
    memset(wanted, BLANK, SHEET + 2 * AROUND);
}

/* The bytes are those wanted, around the output too. */
static void same(const char *what, uint32_t which) {
    expect(what, which, memcmp(lent, wanted, SHEET + 2 * AROUND) == 0, 1);
}

/* The line of a segment is wanted, and the empty one that follows it. */
static void want(uint32_t s, uint32_t tag, uint32_t class_, uint32_t used) {
    static const char marks[] = "################################", dots[] = "................................";
    char text[128], number[16] = "--";
    uint32_t all = 0, bar = 0;
    if (tag == BORVUKHAI_SEGMENT_FREE) {
        used = 0;
    } else {
        all = blocks(class_), bar = 32 * used / all;
        snprintf(number, sizeof number, "%2u", (unsigned)class_);
    }
    snprintf(text, sizeof text, "%3u %s %c %4u %4u %.*s%.*s\n\n", (unsigned)s, number, "FPHLC"[tag], (unsigned)used,
             (unsigned)(all - used), (int)bar, marks, (int)(32 - bar), dots);
    memcpy(wanted + from + line_at(s), text, s % 60 == 59 && s + 1 < segments ? LINE + 1 : LINE);
}

/* A word of a segment in the look at the states. */
static uint32_t word(uint32_t s, uint32_t at) { return output[s * BORVUKHAI_STATE_WORDS + at]; }

/* All lines are wanted, by the words of that look. */
static void want_by_states(void) {
    uint32_t s;
    ok("states", borvukhai_states(HEAP, output, BORVUKHAI_STATES_LENGTH(segments, kib)));
    for (s = 0; s < segments; s++) {
        want(s, word(s, BORVUKHAI_STATE_TAG), word(s, BORVUKHAI_STATE_CLASS),
             word(s, BORVUKHAI_STATE_KEPT) + word(s, BORVUKHAI_STATE_HANDED_OUT));
    }
}

/* All lines are wanted, by the words of the memory. */
static void want_by_memory(void) {
    uint32_t s, tag;
    for (s = 0; s < segments; s++) {
        tag = *stored(s, BORVUKHAI_STATE_TAG);
        want(s, tag, *stored(s, BORVUKHAI_STATE_CLASS), tag == BORVUKHAI_SEGMENT_FREE ? 0 : in_use(s));
    }
}

static uint32_t sheet(void) { return borvukhai_sheet(HEAP, lent + from, SHEET); }

/* The sheet of memory that passes the examination. */
static void look(void) {
    blank();
    ok("sheet", sheet());
    want_by_states();
    same("the lines by the states", segments);
    memset(wanted + from, BLANK, SHEET);
    want_by_memory();
    same("the lines by the memory", segments);
}

/* The same, and the heap stays. */
static void look_and_keep(void) {
    keep();
    look();
    kept("the sheet keeps the memory");
    expect("sound", segments, (uint64_t)borvukhai_is_sound(HEAP, scratch, BORVUKHAI_SCRATCH_LENGTH(segments, kib)), 1);
}

/* The line of a segment is this one, by hand, and a line feed. */
static void reads(uint32_t s, const char *line) {
    const uint8_t *at = lent + from + line_at(s);
    expect("a line by hand", s, strlen(line), LINE - 1);
    if (memcmp(at, line, LINE - 1) != 0) {
        fprintf(stderr, "%.51s\n%s, expected\n", (const char *)at, line);
    }
    expect("the line of segment", s, memcmp(at, line, LINE - 1) == 0, 1);
    expect("the line feed of segment", s, at[LINE - 1], '\n');
}

/* Where a class has another number at 32 KiB, with the same blocks. */
static void reads_either(uint32_t s, const char *at_16, const char *at_32) { reads(s, kib == 32 ? at_32 : at_16); }

/* The formula, its figures, and 0 for a count or a size that is none; the constant knows no size. */
static void lengths(void) {
    static const uint32_t counts[8] = {1, 59, 60, 61, 120, 121, 181, 256};
    static const uint32_t figures[8] = {52, 3068, 3120, 3173, 6241, 6294, 9415, 13316};
    static const uint32_t none[6] = {0, 257, 258, 65536, 0x80000000u, MANY};
    static const uint32_t sizes[11] = {0, 1, 15, 17, 31, 33, 64, 16384, 32768, 0x80000010u, MANY};
    uint32_t n, i;
    for (i = 0; i < 8; i++) {
        expect("length of", counts[i], borvukhai_sheet_length(counts[i], kib), figures[i]);
    }
    for (n = 1; n <= 256; n++) {
        expect("length of", n, borvukhai_sheet_length(n, kib), 52 * n + (n - 1) / 60);
        expect("constant of", n, BORVUKHAI_SHEET_LENGTH(n), 52 * n + (n - 1) / 60);
        for (i = 0; i < 11; i++) {
            expect("length of a size that is none", sizes[i], borvukhai_sheet_length(n, sizes[i]), 0);
        }
    }
    for (i = 0; i < 6; i++) {
        expect("length of", none[i], borvukhai_sheet_length(none[i], kib), 0);
        expect("length of", none[i], borvukhai_sheet_length(none[i], MANY), 0);
        expect("constant of", none[i], BORVUKHAI_SHEET_LENGTH(none[i]), 0);
    }
}

/* An opened heap: every segment is free. The line feeds are one for each segment and one for each empty line. */
static void opened_of(uint32_t count, uint32_t empty) {
    uint32_t at, feeds = 0;
    opened(count);
    look_and_keep();
    for (at = 0; at < SHEET; at++) {
        feeds += lent[from + at] == '\n';
    }
    expect("line feeds of", count, feeds, count + empty);
    expect("the last byte of", count, lent[from + SHEET - 1], '\n');
    expect("the last byte but one of", count, lent[from + SHEET - 2], '.');
    reads(0, "  0 -- F    0    0 ................................");
}

static void opening(void) {
    static const uint32_t counts[12] = {1, 2, 59, 60, 61, 119, 120, 121, 180, 181, 240, 256};
    static const uint32_t empty[12] = {0, 0, 0, 0, 1, 1, 1, 2, 2, 3, 3, 4};
    uint32_t i;
    for (i = 0; i < 12; i++) {
        opened_of(counts[i], empty[i]);
    }
    reads(9, "  9 -- F    0    0 ................................");
    reads(10, " 10 -- F    0    0 ................................");
    reads(99, " 99 -- F    0    0 ................................");
    reads(100, "100 -- F    0    0 ................................");
    reads(255, "255 -- F    0    0 ................................");
    expect("the first empty line", 60, memcmp(lent + from + 3118, ".\n\n 60 --", 9) == 0, 1);
    expect("the last empty line", 240, memcmp(lent + from + 12481, ".\n\n240 --", 9) == 0, 1);
}

/* Document 01's whole case: one segment through its states. Of four records three are alive; the other's block becomes
 * free. */
static void whole_case(void) {
    struct borvukhai_stepped did = {0, 0, 0, 0};
    opened(1);
    makes(0, with(4), 1);
    look();
    reads_either(0, "  0 12 H    1    3 ########........................",
                 "  0 13 H    1    3 ########........................");
    makes(0, with(4), 3);
    look();
    reads_either(0, "  0 12 L    4    0 ################################",
                 "  0 13 L    4    0 ################################");
    ok("start", borvukhai_start(HEAP));
    look();
    reads_either(0, "  0 12 C    4    0 ################################",
                 "  0 13 C    4    0 ################################");
    ok("leave", borvukhai_leave(HEAP, 0));
    while (borvukhai_step_to(HEAP, &did) == BORVUKHAI_OK && did.kind != BORVUKHAI_STEP_DONE) {
        look();
    }
    look();
    reads_either(0, "  0 12 P    3    1 ########################........",
                 "  0 13 P    3    1 ########################........");
}

/* Both handshakes, mutators 0 and 1 inside. */
static void handshakes(void) {
    int i;
    for (i = 0; i < 2; i++) {
        ok("check", borvukhai_check(HEAP, 0));
        ok("check", borvukhai_check(HEAP, 1));
        expect("moved", 0, borvukhai_step_kind(borvukhai_step(HEAP)), BORVUKHAI_STEP_MOVED);
    }
}

/* A segment in each state, in mark. The start condemns segment 0, which is full; segment 1 becomes full after it.
 * Mutator 0 holds segment 2, with 1 of 512 blocks: too few for a # of the bar. Mutator 1 is detached, and segment 3 is
 * part, with 3 of 8: 12 of them. */
static void five_states(void) {
    opened(5);
    ok("attach", borvukhai_attach(HEAP, 1));
    makes(0, with(4), 4);
    ok("start", borvukhai_start(HEAP));
    makes(0, with(4), 4);
    makes(0, with(512), 1);
    handshakes();
    makes(1, with(8), 3);
    ok("detach", borvukhai_detach(HEAP, 1));
}

static void five_states_shown(void) {
    five_states();
    look_and_keep();
    reads_either(0, "  0 12 C    4    0 ################################",
                 "  0 13 C    4    0 ################################");
    reads_either(1, "  1 12 L    4    0 ################################",
                 "  1 13 L    4    0 ################################");
    reads_either(2, "  2  5 H    1  511 ................................",
                 "  2  6 H    1  511 ................................");
    reads_either(3, "  3 11 P    3    5 ############....................",
                 "  3 12 P    3    5 ############....................");
    reads(4, "  4 -- F    0    0 ................................");
}

/* Every number of blocks in use, of every class: two segments, the first of which is filled, held or full. The lines by
 * hand are those of class 3 just before it is full, where the bar is not, and of class 14. */
static void each_number(void) {
    uint32_t c, made;
    for (c = FIRST; c <= LAST; c++) {
        opened(2);
        for (made = 1; made <= blocks(c); made++) {
            ok("make", make(0, made % 16, c));
            look();
            if (c == FIRST && made + 1 == blocks(c)) {
                reads_either(0, "  0  3 H 2047    1 ###############################.",
                             "  0  3 H 4095    1 ###############################.");
            } else if (c == FIRST && made == blocks(c)) {
                reads_either(0, "  0  3 L 2048    0 ################################",
                             "  0  3 L 4096    0 ################################");
            } else if (c == LAST && made == 1) {
                reads_either(0, "  0 14 L    1    0 ################################",
                             "  0 14 H    1    1 ################................");
            }
        }
    }
}

/* Numbers by a xorshift. */
static uint32_t seed;
static uint32_t any(uint32_t below) {
    seed ^= seed << 13;
    seed ^= seed >> 17;
    seed ^= seed << 5;
    return seed % below;
}

/* Makes of one class by one mutator, at most as many as a segment has blocks, as long as there is room. */
static void any_makes(uint32_t mutator) {
    uint32_t class_ = FIRST + any(CLASSES), count = 1 + any(blocks(class_));
    while (count-- != 0 && make(mutator, any(16), class_) == BORVUKHAI_OK) {
    }
}

enum { MUTATORS = 4, TURNS = 1200 };

/* Some steps, each mutator checking before each of them. */
static void any_steps(void) {
    uint32_t mutator, steps = 1 + any(60);
    while (steps-- != 0) {
        for (mutator = 0; mutator < MUTATORS; mutator++) {
            borvukhai_check(HEAP, mutator);
        }
        borvukhai_step(HEAP);
    }
}

/* What is refused is left out. */
static void any_turn(void) {
    uint32_t mutator = any(MUTATORS);
    switch (any(8)) {
    case 0:
        borvukhai_detach(HEAP, mutator);
        borvukhai_attach(HEAP, mutator);
        break;
    case 1:
        borvukhai_start(HEAP);
        break;
    case 2:
        any_steps();
        break;
    default:
        any_makes(mutator);
    }
}

/* How many pairs of state and class, and how many lengths of the bar, were seen. */
static uint8_t seen_pairs[5][LAST + 1], seen_bars[33];
static void see(void) {
    uint32_t s, tag, class_;
    for (s = 0; s < segments; s++) {
        tag = word(s, BORVUKHAI_STATE_TAG), class_ = word(s, BORVUKHAI_STATE_CLASS);
        seen_pairs[tag][class_] = 1;
        if (tag != BORVUKHAI_SEGMENT_FREE) {
            seen_bars[32 * (word(s, BORVUKHAI_STATE_KEPT) + word(s, BORVUKHAI_STATE_HANDED_OUT)) / blocks(class_)] = 1;
        }
    }
}

static uint32_t ones(const uint8_t *of, size_t count) {
    uint32_t sum = 0;
    while (count-- != 0) {
        sum += of[count];
    }
    return sum;
}

/* A long run over 256 segments. Every state is seen with every class, but that at 16 KiB nobody holds a segment of
 * class 14 and none is part; and the bar in every length. */
static void long_run(void) {
    uint32_t i;
    opened(MOST);
    for (i = 1; i < MUTATORS; i++) {
        ok("attach", borvukhai_attach(HEAP, i));
    }
    memset(seen_pairs, 0, sizeof seen_pairs);
    memset(seen_bars, 0, sizeof seen_bars);
    seed = 2463534242u;
    for (i = 0; i < TURNS; i++) {
        any_turn();
        if (i % 4 == 0) {
            look();
            see();
        }
    }
    look_and_keep();
    expect("states with classes", kib, ones(seen_pairs[0], sizeof seen_pairs), 1 + 4 * CLASSES - (kib == 32 ? 0 : 2));
    expect("lengths of the bar", kib, ones(seen_bars, sizeof seen_bars), 33);
}

/* Refused SIZE, and the output stays. */
static void refused_size(const char *what, uint32_t count, uint32_t size, size_t length, size_t output_length) {
    expect(what, count, borvukhai_sheet(count, size, memory, length, lent + from, output_length), BORVUKHAI_SIZE);
    same("refused SIZE, the output stays", count);
}

/* Lengths of the output that are not the sheet's: of other counts, without the empty lines, with one at the end, in
 * words, or of the look at the states. */
static void size_of_output(void) {
    const size_t lengths[] = {0,
                              1,
                              SHEET - 1,
                              SHEET + 1,
                              LINE * segments,
                              LINE * segments + segments / 60,
                              (SHEET + 3) / 4,
                              BORVUKHAI_SHEET_LENGTH(segments + 1),
                              BORVUKHAI_SHEET_LENGTH(MOST),
                              BORVUKHAI_STATES_LENGTH(segments, kib),
                              BORVUKHAI_STATES_LENGTH(segments, kib) * sizeof output[0]};
    size_t i;
    for (i = 0; i < sizeof lengths / sizeof lengths[0]; i++) {
        if (lengths[i] != SHEET) {
            refused_size("an output of another length", segments, kib, BORVUKHAI_LENGTH(segments, kib), lengths[i]);
        }
    }
}

/* Another count, another size, or memory of another length, with an output that is right for the heap or for them. */
static void size_of_heap(void) {
    static const uint32_t counts[] = {0, 257, 258, 0x80000000u, MANY};
    static const uint32_t sizes[] = {0, 1, 15, 17, 31, 33, 64, 16384, 32768, MANY};
    const size_t right = BORVUKHAI_LENGTH(segments, kib);
    size_t i;
    for (i = 0; i < sizeof counts / sizeof counts[0]; i++) {
        refused_size("a count that is none", counts[i], kib, right, SHEET);
        refused_size("a count that is none, and no words", counts[i], kib, 0, 0);
    }
    for (i = 0; i < sizeof sizes / sizeof sizes[0]; i++) {
        refused_size("a size that is none", segments, sizes[i], right, SHEET);
        refused_size("a size that is none, and no words", segments, sizes[i], 0, 0);
    }
    refused_size("one more segment", segments + 1, kib, right, SHEET);
    refused_size("one more segment, its output", segments + 1, kib, right, BORVUKHAI_SHEET_LENGTH(segments + 1));
    refused_size("one less", segments - 1, kib, right, BORVUKHAI_SHEET_LENGTH(segments - 1));
    refused_size("the other size", segments, kib == 32 ? 16 : 32, right, SHEET);
    refused_size("no words", segments, kib, 0, SHEET);
    refused_size("one word less", segments, kib, right - 1, SHEET);
    refused_size("one word more", segments, kib, right + 1, SHEET);
}

/* The number is 1 over torn memory too. */
static void size(void) {
    static const uint32_t counts[] = {1, 60, 61, 121};
    size_t i;
    for (i = 0; i < sizeof counts / sizeof counts[0]; i++) {
        opened(counts[i]);
        keep();
        blank();
        size_of_output();
        size_of_heap();
        kept("refused SIZE, the memory stays");
        *stored(0, BORVUKHAI_STATE_TAG) = 5;
        size_of_output();
        size_of_heap();
    }
}

/* Whether the sheet is refused for a segment: its tag is none; or it is not free, and its class is none, or its counts
 * are more than its blocks together, no sum wrapping. */
static int is_torn(uint32_t s) {
    const uint32_t *state = stored(s, 0);
    uint64_t used = (uint64_t)state[BORVUKHAI_STATE_KEPT] + state[BORVUKHAI_STATE_HANDED_OUT];
    if (state[BORVUKHAI_STATE_TAG] > BORVUKHAI_SEGMENT_CONDEMNED) {
        return 1;
    }
    return state[BORVUKHAI_STATE_TAG] != BORVUKHAI_SEGMENT_FREE &&
           (!is_class(state[BORVUKHAI_STATE_CLASS]) || used > blocks(state[BORVUKHAI_STATE_CLASS]));
}

/* The sheet of memory with segment s torn or not: refused, and the output stays; or the counts as they are. */
static void torn_or_shown(uint32_t s) {
    int refused = is_torn(s);
    blank();
    expect("sheet over torn words", s, sheet(), refused ? BORVUKHAI_TORN : BORVUKHAI_OK);
    if (!refused) {
        want_by_states();
    }
    same(refused ? "refused TORN, the output stays" : "the lines over torn words", s);
}

/* Every pair of these counts for a segment; the sums of some are 4,294,967,296 and a little more. */
static void torn_counts(uint32_t s, uint32_t of) {
    const uint32_t numbers[8] = {0, 1, of - 1, of, of + 1, 0x80000000u, MANY - of, MANY};
    uint32_t i, j;
    for (i = 0; i < 8; i++) {
        for (j = 0; j < 8; j++) {
            *stored(s, BORVUKHAI_STATE_KEPT) = numbers[i];
            *stored(s, BORVUKHAI_STATE_HANDED_OUT) = numbers[j];
            torn_or_shown(s);
        }
    }
}

/* The same with every tag and class. */
static void torn_record(uint32_t s) {
    static const uint32_t tags[9] = {0, 1, 2, 3, 4, 5, 6, 0x80000000u, MANY};
    static const uint32_t classes[14] = {0, 1, 2, 3, 4, 13, 14, 15, 16, 31, 32, 35, 0x80000003u, MANY};
    uint32_t i, j;
    for (i = 0; i < 9; i++) {
        for (j = 0; j < 14; j++) {
            *stored(s, BORVUKHAI_STATE_TAG) = tags[i];
            *stored(s, BORVUKHAI_STATE_CLASS) = classes[j];
            torn_counts(s, is_class(classes[j]) ? blocks(classes[j]) : 4);
        }
    }
}

/* The first, the third and the last of five segments, which are in all five states, and the memory as it was else. */
static void torn(void) {
    uint32_t s;
    five_states();
    for (s = 0; s < 5; s += 2) {
        keep();
        torn_record(s);
        memcpy(stored(s, 0), before + (stored(s, 0) - memory), BORVUKHAI_STATE_WORDS * sizeof memory[0]);
        kept("the memory stays");
    }
    look_and_keep();
}

/* One torn segment among 121 free ones, wherever it stands: no line before it is written. */
static void torn_one_of_many(void) {
    static const uint32_t numbers[6] = {5, MANY, 2, 15, MANY, MANY};
    static const uint32_t words[6] = {BORVUKHAI_STATE_TAG,   BORVUKHAI_STATE_TAG,  BORVUKHAI_STATE_CLASS,
                                      BORVUKHAI_STATE_CLASS, BORVUKHAI_STATE_KEPT, BORVUKHAI_STATE_HANDED_OUT};
    uint32_t s, i;
    opened(121);
    for (s = 0; s < segments; s++) {
        const uint32_t full[6] = {BORVUKHAI_SEGMENT_FULL, with(4), 4, 0, 1, 3}, none[6] = {0, 0, 0, 0, 0, 0};
        memcpy(stored(s, 0), full, sizeof full);
        torn_or_shown(s);
        for (i = 0; i < 6; i++) {
            memcpy(stored(s, 0), full, sizeof full);
            *stored(s, words[i]) = numbers[i];
            expect("torn", s, (uint64_t)is_torn(s), 1);
            torn_or_shown(s);
        }
        memcpy(stored(s, 0), none, sizeof none);
    }
    look_and_keep();
}

/* No other word than a segment's tag, class and counts is asked: any of them may be any number. */
static void torn_elsewhere(void) {
    uint32_t at, number, here;
    opened(1);
    makes(0, with(4), 3);
    here = (uint32_t)(stored(0, 0) - memory);
    look();
    for (at = 0; at < BORVUKHAI_LENGTH(segments, kib); at++) {
        number = memory[at];
        if (at < here || at > here + BORVUKHAI_STATE_HANDED_OUT || at == here + BORVUKHAI_STATE_PLACE ||
            at == here + BORVUKHAI_STATE_MUTATOR) {
            memory[at] = MANY;
            memset(lent, BLANK, SHEET + 2 * AROUND);
            ok("sheet", sheet());
            same("the lines with another word torn", at);
            memory[at] = number;
        }
    }
}

/* Memory that is no heap: zeros, which no opening wrote, show every segment free; ones are torn. */
static void no_heap(void) {
    segments = 61;
    memset(memory, 0, BORVUKHAI_LENGTH(segments, kib) * sizeof memory[0]);
    blank();
    ok("sheet of zeros", sheet());
    want_by_memory();
    same("the lines of zeros", segments);
    memset(memory, 0xff, BORVUKHAI_LENGTH(segments, kib) * sizeof memory[0]);
    blank();
    expect("sheet of ones", segments, sheet(), BORVUKHAI_TORN);
    same("refused TORN, the output stays", segments);
}

/* The output at any address. */
static void any_address(void) {
    for (from = AROUND - 8; from <= AROUND + 8; from++) {
        opened(61);
        makes(0, with(4), 3);
        look();
        five_states();
        look();
        *stored(4, BORVUKHAI_STATE_TAG) = MANY;
        torn_or_shown(4);
    }
    from = AROUND;
}

int main(void) {
    static const struct {
        const char *name;
        void (*run)(void);
    } parts[] = {{"lengths", lengths},
                 {"opened heaps", opening},
                 {"a segment through its states", whole_case},
                 {"all five states", five_states_shown},
                 {"every number of blocks in use, of every class", each_number},
                 {"a long run over 256 segments", long_run},
                 {"1 size", size},
                 {"13 torn: tags, classes and counts", torn},
                 {"13 torn: one segment of many", torn_one_of_many},
                 {"torn elsewhere, and shown", torn_elsewhere},
                 {"memory that is no heap", no_heap},
                 {"an output at any address", any_address}};
    size_t i;
    for (kib = 16; kib <= 32; kib += 16) {
        for (i = 0; i < sizeof parts / sizeof parts[0]; i++) {
            int failed = failures;
            int tried = checks;
            parts[i].run();
            printf("%u KiB, %s: %d checks, %d failed\n", (unsigned)kib, parts[i].name, checks - tried,
                   failures - failed);
        }
    }
    printf("%d checks, %d failed\n", checks, failures);
    return failures == 0 ? 0 : 1;
}
