/* The trap of a 32-bit target: one call, whose length and mutator a plain library reads wrongly and a widened one
 * rightly. The number that it ends with is the refusal of an attach that nothing refuses. */
#include "borvukhai.h"

#define SEGMENTS 1u
#define KIB 16u
static uint32_t memory[BORVUKHAI_LENGTH(SEGMENTS, KIB)];

int main(void) {
    borvukhai_open(SEGMENTS, KIB, memory, BORVUKHAI_LENGTH(SEGMENTS, KIB));
    return (int)borvukhai_attach(SEGMENTS, KIB, memory, BORVUKHAI_LENGTH(SEGMENTS, KIB), 1);
}
