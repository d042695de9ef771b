/* Reads a script of weeks (second/README.md, Lines of `weeks`) and prints of each line what the library replies and leaves. The C library's functions are
   declared here by hand, so that the kit's own compiler builds this with no header of a C library. */
#include "dullavane.h"

typedef uint8_t u8;
typedef uint16_t u16;
typedef uint32_t u32;
typedef uint64_t u64;
typedef int64_t i64;
extern int getchar(void);
extern int printf(const char *form, ...);
extern void exit(int status);

/* Numbers that a list can have, those that a call may write can have, and those that stand behind these; what stands there before the call. */
enum { MOST = 1 << 17, MOST_REPLIES = 1 << 10, BEHIND = 3, BEFORE = 77, WORDS = 2 + BEHIND };

/* A list that a call reads: how long it is told to be, and how many numbers are there. */
typedef struct { u64 length, there; } list;

static i64 performances[MOST];
static u8 live[MOST];
static u16 whose[MOST];
static i64 reply[MOST_REPLIES + BEHIND], defaults[MOST_REPLIES + BEHIND];
static u16 counts[MOST_REPLIES + BEHIND];
static u64 words[WORDS] = {0, 0, BEFORE, BEFORE, BEFORE};
static int last, digits; /* the character that ended the number read last, and how many digits it had */

static void stop(const char *why) {
    printf("bad script: %s\n", why);
    exit(1);
}

/* The next number; `last` is what follows it. */
static u64 number(void) {
    u64 size = 0;
    int minus = 0;
    digits = 0;
    for (last = getchar(); last == '-' || (last >= '0' && last <= '9'); last = getchar()) {
        if (last == '-') minus = 1;
        else {
            size = size * 10 + (u64)(last - '0');
            digits++;
        }
    }
    return minus ? -size : size;
}

static void set(u32 width, void *room, u64 place, u64 value) {
    if (place >= MOST) stop("a long list");
    if (width == 1) ((u8 *)room)[place] = (u8)value;
    else if (width == 2) ((u16 *)room)[place] = (u16)value;
    else ((u64 *)room)[place] = value;
}

/* A list in one word, `LENGTH:N1,N2,...`; `TIMES*N` is the same number so many times. */
static list next_list(u32 width, void *room) {
    list read = {number(), 0};
    if (last != ':') stop("no list");
    while (last == ':' || last == ',') {
        u64 value = number(), times = 1;
        if (last == '*') {
            times = value;
            value = number();
        } else if (last != ',' && last != ' ' && last != '\n') {
            stop("no number");
        }
        /* A list may be told to have numbers that are not there. */
        for (; digits && times; times--) set(width, room, read.there++, value);
    }
    return read;
}

/* A sum that no moved or changed byte leaves as it was. */
static u64 checksum(const void *room, u64 bytes) {
    u64 sum = 0xcbf29ce484222325ul;
    for (u64 i = 0; i < bytes; i++) sum = (sum ^ ((const u8 *)room)[i]) * 0x100000001b3ul;
    return sum;
}

static u64 inputs(list first, list second, list third) {
    return checksum(performances, 8 * first.there) ^ checksum(live, second.there) * 3 ^ checksum(whose, 2 * third.there) * 5;
}

static u64 room_of(u64 length) { return (length < MOST_REPLIES ? length : MOST_REPLIES) + BEHIND; }

static void print_signed(const i64 *numbers, u64 length) {
    for (u64 i = 0; i < room_of(length); i++) printf(" %ld", (long)numbers[i]);
}

static void print_words(void) {
    for (u64 i = 0; i < WORDS; i++) printf(" %lu", (unsigned long)words[i]);
}

static void end_line(u64 before, u64 after) { printf(before == after ? "\n" : " a list that is only read has changed\n"); }

static void list_form(void) {
    u16 member = (u16)number();
    list week = next_list(8, performances), bits = next_list(1, live), none = {0, 0};
    u64 length = number();
    for (u64 i = 0; i < room_of(length); i++) reply[i] = BEFORE;
    u64 before = inputs(week, bits, none);
    printf("week %u", dullavane_week(member, performances, week.length, live, bits.length, reply, length));
    print_signed(reply, length);
    end_line(before, inputs(week, bits, none));
}

static void roster_form(void) {
    u32 intervals = (u32)number();
    list members = next_list(2, whose), weeks = next_list(8, performances), bits = next_list(1, live);
    u64 counts_length = number(), defaults_length = number();
    for (u64 i = 0; i < room_of(counts_length); i++) counts[i] = BEFORE;
    for (u64 i = 0; i < room_of(defaults_length); i++) defaults[i] = BEFORE;
    u64 before = inputs(weeks, bits, members);
    printf("weeks %u counts", dullavane_weeks(intervals, whose, members.length, performances, weeks.length, live, bits.length, counts, counts_length,
                                              defaults, defaults_length));
    for (u64 i = 0; i < room_of(counts_length); i++) printf(" %u", counts[i]);
    printf(" defaults");
    print_signed(defaults, defaults_length);
    end_line(before, inputs(weeks, bits, members));
}

/* The words of the running week that the lines after this one go by. */
static void keep(void) {
    words[0] = number();
    words[1] = number();
    for (u64 i = 2; i < WORDS; i++) words[i] = BEFORE;
    printf("keep");
    print_words();
    printf("\n");
}

static void add(void) {
    u16 member = (u16)number();
    u64 flag = number(), performance = number(), length = number();
    printf("add %u", dullavane_week_add(member, flag == 1, (i64)performance, words, length));
    print_words();
    printf("\n");
}

static void read_out(void) {
    u16 member = (u16)number();
    u64 words_length = number(), length = number();
    for (u64 i = 0; i < room_of(length); i++) reply[i] = BEFORE;
    printf("read %u", dullavane_week_read(member, words, words_length, reply, length));
    print_signed(reply, length);
    printf(" words");
    print_words();
    printf("\n");
}

int main(void) {
    for (int c = getchar(); c >= 0; c = getchar()) {
        int letters = 1, first = c;
        for (c = getchar(); c >= 'a' && c <= 'z'; c = getchar()) letters++;
        if (c != ' ') stop("no line");
        if (first == 'w' && letters == 4) list_form();
        else if (first == 'w' && letters == 5) roster_form();
        else if (first == 'k') keep();
        else if (first == 'a') add();
        else if (first == 'r') read_out();
        else stop("no such line");
        if (last != '\n') stop("a line that does not end");
    }
    return 0;
}
