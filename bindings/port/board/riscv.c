/* The start of a RISC-V core, and the debugger's call by its three instructions. A trap ends the emulator with
 * status 3. */
#include "board.h"

__attribute__((naked, section(".vectors"), used)) void reset(void) {
    __asm__ volatile(".option arch, +zicsr\n la sp, stack_top\n la t0, trapped\n csrw mtvec, t0\n j begin");
}

__attribute__((aligned(4), used)) void trapped(void) { board_end(3); }

__attribute__((used)) void begin(void) {
    board_clear();
    board_end((uint32_t)main());
}

__attribute__((noinline)) void board_call(uintptr_t what, const void *with) {
    register uintptr_t a0 __asm__("a0") = what;
    register const void *a1 __asm__("a1") = with;
    __asm__ volatile(".option push\n .option norvc\n .balign 16\n slli zero, zero, 0x1f\n ebreak\n srai zero, zero, 7\n .option pop"
                     : "+r"(a0)
                     : "r"(a1)
                     : "memory");
}
