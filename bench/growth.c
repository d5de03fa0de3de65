/* How the cost of a cycle grows: the rows of cycles.c at the powers of two of segments that it leaves out, so that the two
 * have 1, 2, 4 .. 256 between them. The rows are dumps of callgrind's; prints the live records of each row. */
#define main main_of_cycles /* its heaps and its probe, and not its run */
#include "cycles.c"
#undef main

int main(void) {
    for (u32 segments = 2; segments < 256; segments *= 2)
        if (segments != 64) rows_cycle(segments);
    return 0;
}
