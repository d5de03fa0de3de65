/* The start of a Cortex-M: the vectors, and the debugger's call by its breakpoint. A fault ends the emulator with
 * status 3. */
#include "board.h"

void reset(void);

static void fault(void) { board_end(3); }

__attribute__((section(".vectors"), used)) static void (*const vectors[16])(void) = {
    (void (*)(void))(void *)stack_top, reset, fault, fault, fault, fault, fault};

void board_call(uintptr_t what, const void *with) {
    register uintptr_t r0 __asm__("r0") = what;
    register const void *r1 __asm__("r1") = with;
    __asm__ volatile("bkpt 0xab" : "+r"(r0) : "r"(r1) : "memory");
}

void reset(void) {
    board_clear();
    board_end((uint32_t)main());
}
