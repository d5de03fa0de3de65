/* A board in an emulator: the linker script's places, and the debugger's calls (semihosting) for a text and an end. */
#ifndef BOARD_H
#define BOARD_H

#include <stdint.h>

extern uint32_t bss_begin[], bss_end[], stack_low[], stack_top[];

enum { BOARD_WRITE = 0x04, BOARD_EXIT = 0x20 }; /* SYS_WRITE0, SYS_EXIT_EXTENDED */

/* One call of the debugger. */
void board_call(uintptr_t what, const void *with);

/* Ends the emulator with a status. */
static inline void board_end(uint32_t status) {
    uint32_t with[2] = {0x20026u, status}; /* the application has ended */
    board_call(BOARD_EXIT, with);
    for (;;) {
    }
}

/* The words of static memory that begin as 0, and the paint on the stack below this frame. */
static inline void board_clear(void) {
    volatile uint32_t *at;
    for (at = bss_begin; at < bss_end; at++) {
        *at = 0;
    }
    for (at = stack_low; at < (uint32_t *)__builtin_frame_address(0) - 64; at++) {
        *at = 0x5a5a5a5au;
    }
}

/* How many bytes of the stack were ever written. */
static inline uint32_t board_stack(void) {
    volatile uint32_t *at = stack_low;
    while (*at == 0x5a5a5a5au) {
        at++;
    }
    return (uint32_t)((uintptr_t)stack_top - (uintptr_t)at);
}

int main(void);

#endif
