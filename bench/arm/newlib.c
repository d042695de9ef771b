/* What newlib asks of a board, for bench/plain.c, bench/strip.c, bench/panel.c and tests/strips.c. */
#include "board.h"
#include <sys/stat.h>

/* For the buffers of standard input and output. */
static char heap[4096] __attribute__((aligned(8)));
static int taken;

void *_sbrk(int more) {
    if (taken + more > (int)sizeof heap) return (void *)-1;
    taken += more;
    return heap + taken - more;
}

int _read(int file, char *to, int most) { return file == 0 ? board_read(to, most) : 0; }
int _write(int file, const char *from, int count) { return file == 1 ? board_write(from, count) : count; }
int _close(int file) { return (void)file, 0; }
int _lseek(int file, int to, int how) { return (void)file, (void)to, (void)how, 0; }
int _isatty(int file) { return (void)file, 0; }
int _fstat(int file, struct stat *status) { return (void)file, status->st_mode = S_IFIFO, 0; }
int _getpid(void) { return 1; }
int _kill(int process, int signal) { return (void)process, (void)signal, -1; }
void _exit(int status) { board_leave(status); }
