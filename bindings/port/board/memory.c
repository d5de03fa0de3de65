/* What the library asks of a C library, for a program that has none: memset, and what a compiler for a board may put in
 * its place. */
#include <stddef.h>
#include <stdint.h>

/* Bytes through a volatile pointer, so that no compiler makes the loop a call of the function that it is in. */
void *memset(void *to, int byte, size_t count) {
    volatile unsigned char *at = (volatile unsigned char *)to;
    while (count-- > 0) {
        *at++ = (unsigned char)byte;
    }
    return to;
}

void *memcpy(void *to, const void *from, size_t count) {
    volatile unsigned char *at = (volatile unsigned char *)to;
    const unsigned char *source = (const unsigned char *)from;
    while (count-- > 0) {
        *at++ = *source++;
    }
    return to;
}

#ifdef __ARM_EABI__
/* The names and orders of ARM's run-time interface, for any alignment and for those of 4 and 8. */
#define ARM(what)                                                                                       \
    void __aeabi_memset##what(void *to, size_t count, int byte) { memset(to, byte, count); }            \
    void __aeabi_memclr##what(void *to, size_t count) { memset(to, 0, count); }                         \
    void __aeabi_memcpy##what(void *to, const void *from, size_t count) { memcpy(to, from, count); }
ARM()
ARM(4)
ARM(8)
#endif
