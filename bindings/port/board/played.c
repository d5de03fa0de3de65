/* play.h on a board, without a C library: the same lines as hosted.c, and the stack's deepest use. */
#include "../play.h"
#include "board.h"

void say(const char *text) { board_call(BOARD_WRITE, text); }

int main(void) {
    int failed = play();
    say("stack ");
    play_say_number(board_stack(), 10);
    say(" bytes\n");
    return failed;
}
