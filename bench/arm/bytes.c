/* examples/box.c's bytes in and out, where a box has its radio or serial line: in by 64, out by lines; and its end. */
#include "board.h"

static unsigned char in[64], out[64];
static int at, there, filled;

int getchar(void) {
    if (at == there) {
        at = 0;
        there = board_read(in, sizeof in);
    }
    return at < there ? in[at++] : -1;
}

int putchar(int c) {
    out[filled++] = (unsigned char)c;
    if (c == '\n' || filled == sizeof out) {
        board_write(out, filled);
        filled = 0;
    }
    return c;
}

_Noreturn void exit(int status) { board_leave(status); }
