/* The header alone, and its constants as the sizes of arrays: by arguments of each kind of integer, and by numbers that
 * are no count, no size or no class. It is compiled and not run. */
#include "borvukhai.h"

#define IS(name, what, number) extern char name[(what) == (number) ? 1 : -1]

extern uint32_t memory[BORVUKHAI_LENGTH(256u, 32u)], output[BORVUKHAI_STATES_LENGTH(256u, 32u)];
extern uint32_t scratch[BORVUKHAI_SCRATCH_LENGTH(256u, 32u)], blocks[BORVUKHAI_BLOCKS(32u, 3u)];
extern uint8_t sheet[BORVUKHAI_SHEET_LENGTH(256u)];

IS(least_16, BORVUKHAI_LENGTH(1, 16), 7347);
IS(least_32, BORVUKHAI_LENGTH(1u, 32u), 13621);
IS(most_16, BORVUKHAI_LENGTH(256ul, 16ul), 1612317);
IS(most_32, BORVUKHAI_LENGTH((uint64_t)256, (uint64_t)32), 3218461);
IS(no_count, BORVUKHAI_LENGTH(0u, 16u), 0);
IS(no_count_32, BORVUKHAI_LENGTH(257u, 32u), 0);
IS(no_count_at_all, BORVUKHAI_LENGTH(4294967295u, 32u), 0);
IS(no_size, BORVUKHAI_LENGTH(1u, 0u), 0);
IS(no_size_17, BORVUKHAI_LENGTH(1u, 17u), 0);
IS(no_size_at_all, BORVUKHAI_LENGTH(256u, 4294967295u), 0);
IS(neither, BORVUKHAI_LENGTH(4294967295u, 4294967295u), 0);

IS(states_16, BORVUKHAI_STATES_LENGTH(7u, 16u), 42);
IS(states_32, BORVUKHAI_STATES_LENGTH(7, 32), 42);
IS(states_of_no_count, BORVUKHAI_STATES_LENGTH(4294967295u, 16u), 0);
IS(states_of_no_size, BORVUKHAI_STATES_LENGTH(7u, 4294967295u), 0);
IS(scratch_16, BORVUKHAI_SCRATCH_LENGTH(256u, 16u), 557056);
IS(scratch_32, BORVUKHAI_SCRATCH_LENGTH(256, 32), 1114112);
IS(scratch_of_no_count, BORVUKHAI_SCRATCH_LENGTH(4294967295u, 32u), 0);
IS(scratch_of_no_size, BORVUKHAI_SCRATCH_LENGTH(256u, 4294967295u), 0);

IS(sheet_of_one, BORVUKHAI_SHEET_LENGTH(1), 52);
IS(sheet_of_60, BORVUKHAI_SHEET_LENGTH(60u), 3120);
IS(sheet_of_61, BORVUKHAI_SHEET_LENGTH(61ul), 3173);
IS(most_of_a_sheet, BORVUKHAI_SHEET_LENGTH((uint64_t)256), 13316);
IS(sheet_of_no_count, BORVUKHAI_SHEET_LENGTH(0u) + BORVUKHAI_SHEET_LENGTH(257) + BORVUKHAI_SHEET_LENGTH(-1), 0);
IS(sheet_of_no_count_at_all, BORVUKHAI_SHEET_LENGTH(4294967295u), 0);

IS(size_16, BORVUKHAI_IS_SIZE(16) && BORVUKHAI_IS_SIZE(16u) && BORVUKHAI_IS_SIZE((uint64_t)16), 1);
IS(size_32, BORVUKHAI_IS_SIZE(32) && BORVUKHAI_IS_SIZE(32u) && BORVUKHAI_IS_SIZE((uint64_t)32), 1);
IS(sizes_that_are_none, BORVUKHAI_IS_SIZE(0u) || BORVUKHAI_IS_SIZE(48) || BORVUKHAI_IS_SIZE(-16), 0);
IS(sizes_far_off, BORVUKHAI_IS_SIZE(4294967295u) || BORVUKHAI_IS_SIZE((uint64_t)16 << 32), 0);

IS(first_16, BORVUKHAI_BLOCKS(16, 3), 2048);
IS(last_16, BORVUKHAI_BLOCKS(16u, 14u), 1);
IS(first_32, BORVUKHAI_BLOCKS(32u, BORVUKHAI_CLASS_OF(1)), 4096);
IS(last_32, BORVUKHAI_BLOCKS(32, BORVUKHAI_CLASS_OF(4095)), 2);
IS(no_class, BORVUKHAI_BLOCKS(32u, 2u) + BORVUKHAI_BLOCKS(16u, 15u) + BORVUKHAI_BLOCKS(16, -1), 0);
IS(no_class_at_all, BORVUKHAI_BLOCKS(32u, 4294967295u), 0);
IS(blocks_of_no_size, BORVUKHAI_BLOCKS(4294967295u, 3u) + BORVUKHAI_BLOCKS(0u, 3u) + BORVUKHAI_BLOCKS(24, 3), 0);
