/* play.h under an operating system, in a thread whose stack is painted, so that its deepest use is seen. */
#define _GNU_SOURCE /* pthread_attr_setstack */
#include "play.h"

#include <pthread.h>
#include <stdio.h>
#include <string.h>

#define STACK (256 * 1024)
#define PAINT 0x5a

static char stack[STACK] __attribute__((aligned(65536)));

/* What is said is kept until the stack is measured: the C library's own use of it is not wanted. */
static char said[4096];
void say(const char *text) { strncat(said, text, sizeof said - strlen(said) - 1); }

/* How far below the thread's own frame the calls went. */
static long used(const char *frame) {
    const char *at = stack + 4096;
    while (*at == PAINT) {
        at++;
    }
    return (long)(frame - at);
}

static void *run(void *failed) {
    char frame = 0;
    memset(stack + 4096, PAINT, (size_t)(&frame - stack - 4096 - 256));
    *(int *)failed = play();
    printf("stack %ld bytes\n%s", used(&frame), said);
    return NULL;
}

int main(void) {
    pthread_attr_t attributes;
    pthread_t thread;
    int failed = 1;
    pthread_attr_init(&attributes);
    if (pthread_attr_setstack(&attributes, stack, STACK) != 0 || pthread_create(&thread, &attributes, run, &failed) != 0) {
        return 2;
    }
    pthread_join(thread, NULL);
    return failed;
}
