/* Reads a script of calls of the book writer (second/README.md, Lines of `writers`) and prints of each line what the library replies and leaves. The C
   library's functions are declared here by hand, so that the kit's own compiler builds this with no header of a C library. */
#include "dullavane.h"

typedef uint8_t u8;
typedef uint32_t u32;
typedef int32_t i32;
typedef uint64_t u64;
typedef int64_t i64;
extern int getchar(void);
extern int printf(const char *form, ...);
extern void exit(int status);

/* Numbers that a list can have; bytes of the buffer that are there however long it is told to be, those that stand behind it, and what all of them are
   before the call. */
enum { MOST = 1 << 16, ROOM = 1 << 18, BEHIND = 16, BEFORE = 0xa5 };

/* A list that the call reads: how long it is told to be, and how many numbers are there. */
typedef struct { u64 length, there; } list;

static i64 region_rows[MOST], unit_rows[MOST], requirement_rows[MOST];
static u8 region_quality[MOST], unit_quality[MOST];
static u32 points[MOST];
static i32 readings[MOST];
static u8 book[ROOM + BEHIND];
static int last, digits; /* the character that ended the number read last, and how many digits it had */

static void stop(const char *why) {
    printf("bad script: %s\n", why);
    exit(1);
}

/* The next number; `last` is what follows it. */
static u64 number(void) {
    u64 size = 0;
    int minus = 0;
    digits = 0;
    for (last = getchar(); last == '-' || (last >= '0' && last <= '9'); last = getchar()) {
        if (last == '-') minus = 1;
        else {
            size = size * 10 + (u64)(last - '0');
            digits++;
        }
    }
    return minus ? -size : size;
}

static u64 word(void) {
    u64 value = number();
    if (!digits || last != ' ') stop("no number");
    return value;
}

static void set(u32 width, void *room, u64 place, u64 value) {
    if (place >= MOST) stop("a long list");
    if (width == 1) ((u8 *)room)[place] = (u8)value;
    else if (width == 4) ((u32 *)room)[place] = (u32)value;
    else ((u64 *)room)[place] = value;
}

/* A list in one word, `LENGTH:N1,N2,...`; `TIMES*N` is the same number so many times. */
static list next_list(u32 width, void *room) {
    list read = {number(), 0};
    if (last != ':') stop("no list");
    while (last == ':' || last == ',') {
        u64 value = number(), times = 1;
        if (last == '*') {
            times = value;
            value = number();
        }
        if (last != ',' && last != ' ' && last != '\n') stop("no number");
        /* A list may have no number at all. */
        for (; digits && times; times--) set(width, room, read.there++, value);
    }
    return read;
}

/* A sum that no moved or changed byte leaves as it was (FNV-1a), gone on with from another. */
static u64 checksum(u64 sum, const void *room, u64 bytes) {
    for (u64 i = 0; i < bytes; i++) sum = (sum ^ ((const u8 *)room)[i]) * 0x100000001b3ul;
    return sum;
}

static const u64 START = 0xcbf29ce484222325ul;

static u64 inputs(const list *lists) {
    u64 sum = checksum(START, region_rows, 8 * lists[0].there);
    sum = checksum(sum, region_quality, lists[1].there);
    sum = checksum(sum, points, 4 * lists[2].there);
    sum = checksum(sum, unit_rows, 8 * lists[3].there);
    sum = checksum(sum, unit_quality, lists[4].there);
    sum = checksum(sum, readings, 4 * lists[5].there);
    return checksum(sum, requirement_rows, 8 * lists[6].there);
}

static void call(i64 smoothing) {
    i64 limit = (i64)word(), percent = (i64)word(), interval = (i64)word();
    u64 units = word(), requirements = word(), bytes = word();
    list lists[7];
    lists[0] = next_list(8, region_rows);
    lists[1] = next_list(1, region_quality);
    lists[2] = next_list(4, points);
    lists[3] = next_list(8, unit_rows);
    lists[4] = next_list(1, unit_quality);
    lists[5] = next_list(4, readings);
    lists[6] = next_list(8, requirement_rows);
    if (last != '\n') stop("a line that does not end");
    u64 there = (bytes < ROOM ? bytes : ROOM) + BEHIND;
    for (u64 i = 0; i < there; i++) book[i] = BEFORE;
    u64 before = inputs(lists);
    u64 reply = dullavane_write(smoothing, limit, percent, interval, region_rows, lists[0].length, region_quality, lists[1].length, points, lists[2].length,
                                (u32)units, unit_rows, lists[3].length, unit_quality, lists[4].length, readings, lists[5].length,
                                (u32)requirements, requirement_rows, lists[6].length, book, bytes);
    if (DULLAVANE_REFUSAL(reply)) printf("refused %u %u %u", DULLAVANE_REFUSAL(reply), DULLAVANE_PLACE(reply), DULLAVANE_T(reply));
    else printf("written %u", DULLAVANE_LENGTH(reply));
    printf(" %016lx", (unsigned long)checksum(START, book, there));
    printf(before == inputs(lists) ? "\n" : " a list that is only read has changed\n");
}

int main(void) {
    for (;;) {
        i64 smoothing = (i64)number();
        if (last < 0 && !digits) return 0;
        if (!digits || last != ' ') stop("no line");
        call(smoothing);
    }
}
