/* The start of a program on the emulated board, and its way to files of the host by semihosting (a breakpoint that the emulator answers). The
   emulator's command line names two files: the book to read and the listing to write. At the end it says on the console how deep the stack went:
   all RAM past the program's own is painted first, and the lowest word that has changed is looked for. */
#include "board.h"
#include <stdint.h>

enum { OPEN = 0x01, WRITE_TEXT = 0x04, WRITE = 0x05, READ = 0x06, COMMAND_LINE = 0x15, EXIT = 0x20 };
enum { READ_BYTES = 1, WRITE_BYTES = 5, PAINT = 0x5a5a5a5a };

extern uint32_t stack_top[], data_begin[], data_end[], data_kept[], bss_begin[], bss_end[];
int main(void);
_Noreturn void exit(int status);

static int book, listing;

static intptr_t ask(intptr_t what, const void *with) {
    register intptr_t r0 __asm__("r0") = what;
    register const void *r1 __asm__("r1") = with;
    __asm__ volatile("bkpt 0xab" : "+r"(r0) : "r"(r1) : "memory");
    return r0;
}

static void say(const char *what, uint32_t number) {
    char digits[12];
    int at = 11;
    digits[at] = 0;
    digits[--at] = '\n';
    do digits[--at] = (char)('0' + number % 10);
    while (number /= 10);
    ask(WRITE_TEXT, what);
    ask(WRITE_TEXT, digits + at);
}

_Noreturn void board_leave(int status) {
    const uint32_t *at = bss_end;
    while (*at == PAINT) at++;
    if (!status) say("stack ", (uint32_t)((uintptr_t)stack_top - (uintptr_t)at));
    intptr_t with[2] = {0x20026, status};
    for (;;) ask(EXIT, with);
}

int board_read(void *to, int most) {
    intptr_t with[3] = {book, (intptr_t)to, most};
    return most - (int)ask(READ, with);
}

int board_write(const void *from, int count) {
    intptr_t with[3] = {listing, (intptr_t)from, count};
    return count - (int)ask(WRITE, with);
}

static int open_file(const char *name, intptr_t how) {
    intptr_t length = 0;
    while (name[length]) length++;
    intptr_t with[3] = {(intptr_t)name, how, length};
    return (int)ask(OPEN, with);
}

/* The command line is the program's name, the book's and the listing's, with a space between two. */
static void open_files(void) {
    static char line[256];
    intptr_t with[2] = {(intptr_t)line, sizeof line};
    char *names[3] = {line, line, line};
    if (ask(COMMAND_LINE, with) == 0) {
        int count = 1;
        for (char *at = line; *at && count < 3; at++)
            if (*at == ' ') {
                *at = 0;
                names[count++] = at + 1;
            }
    }
    book = open_file(names[1], READ_BYTES);
    listing = open_file(names[2], WRITE_BYTES);
    if (book < 0 || listing < 0) {
        say("no file ", book < 0 ? 1 : 2);
        board_leave(1);
    }
}

/* The core starts with its float unit off, and an instruction of it would be a fault: full access to coprocessors 10 and 11 (CPACR). */
static void switch_floats_on(void) {
#ifdef __ARM_FP
    volatile uint32_t *access = (volatile uint32_t *)0xe000ed88;
    *access |= 0xfu << 20;
    __asm__ volatile("dsb\n\tisb" : : : "memory");
#endif
}

void reset(void) {
    uint32_t *here;
    switch_floats_on();
    __asm__ volatile("mov %0, sp" : "=r"(here));
    for (uint32_t *at = bss_end; at < here; at++) *(volatile uint32_t *)at = PAINT;
    for (uint32_t *at = data_begin, *from = data_kept; at < data_end;) *at++ = *from++;
    for (uint32_t *at = bss_begin; at < bss_end; at++) *(volatile uint32_t *)at = 0;
    open_files();
    exit(main());
}

static void fault(void) {
    ask(WRITE_TEXT, "fault\n");
    board_leave(1);
}

__attribute__((section(".vectors"), used)) static const void *const vectors[16] = {stack_top, reset, fault, fault, fault, fault, fault, 0, 0, 0, 0,
                                                                                  fault, fault, 0, fault, fault};
