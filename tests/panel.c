/* Reads a script of calls of the panel's doors (second/README.md, Lines of `panels`) and prints of each line what the library replies and leaves. The C
   library's functions are declared here by hand, so that the kit's own compiler builds this with no header of a C library. */
#include "dullavane_panel.h"

typedef uint8_t u8;
typedef uint32_t u32;
typedef uint64_t u64;
typedef int64_t i64;
extern int getchar(void);
extern int printf(const char *form, ...);
extern void exit(int status);

/* Bytes behind the text that is lent, which are not lent, and what every byte is before a call. The words of a record, and what the one behind them is. */
enum { BEHIND = 8, MOST_TEXT = 1 << 12, TEXT_BEFORE = 0xa5, RECORD = DULLAVANE_PAGE_WORDS, MOST_WORDS = 4, WORD_BEHIND = 7 };

static u8 text[MOST_TEXT + BEHIND + 8];
static int last; /* the character that ended what was read last */

static void stop(const char *why) {
    printf("bad script: %s\n", why);
    exit(1);
}

/* The next number, a minus before it where it is below zero. */
static u64 number(void) {
    u64 size = 0, digits = 0;
    int first = getchar(), minus = first == '-';
    for (last = minus ? getchar() : first; last >= '0' && last <= '9'; last = getchar()) {
        size = size * 10 + (u64)(last - '0');
        digits++;
    }
    if (!digits || (last != ' ' && last != '\n')) stop("no number");
    return minus ? -size : size;
}

static u64 number_to(u64 most) {
    u64 value = number();
    if (value > most) stop("a number that is too large");
    return value;
}

/* How long the text is that is lent: the line's last number. */
static u64 room(void) {
    u64 bytes = number_to(MOST_TEXT);
    if (last != '\n') stop("a line that does not end");
    return bytes;
}

static void word(char *to, u64 most) {
    u64 length = 0;
    for (last = getchar(); last > ' '; last = getchar()) {
        if (length + 1 == most) stop("a long word");
        to[length++] = (char)last;
    }
    to[length] = 0;
}

static int is(const char *one, const char *other) {
    for (; *one && *one == *other; one++) other++;
    return *one == *other;
}

static void fill(u8 *to, u64 bytes) {
    for (u64 i = 0; i < bytes + BEHIND; i++) to[i] = TEXT_BEFORE;
}

static void print_text(const char *door, u32 reply, const u8 *from, u64 bytes) {
    printf("%s %u ", door, reply);
    for (u64 i = 0; i < bytes; i++) printf("%02x", from[i]);
    if (!bytes) printf("-");
    for (u64 i = 0; i < BEHIND; i++)
        if (from[bytes + i] != TEXT_BEFORE) printf(" a byte behind the text, which is not lent, has changed");
    printf("\n");
}

static void call_first(u8 *to) {
    u32 of = (u32)number(), direction = (u32)number();
    i64 rcr = (i64)number(), pool = (i64)number(), cost = (i64)number();
    u64 bytes = room();
    fill(to, bytes);
    print_text("first", dullavane_panel_first(of, direction, rcr, pool, cost, to, bytes), to, bytes);
}

static void call_member(u8 *to) {
    u32 residual = (u32)number(), of = (u32)number(), standing = (u32)number();
    i64 payment = (i64)number(), used = (i64)number(), unused = (i64)number();
    u64 bytes = room();
    fill(to, bytes);
    print_text("member", dullavane_panel_member(residual, of, standing, payment, used, unused, to, bytes), to, bytes);
}

static void call_phrase(u8 *to) {
    u32 refusal = (u32)number();
    u64 bytes = room();
    fill(to, bytes);
    print_text("phrase", dullavane_panel_phrase(refusal, to, bytes), to, bytes);
}

static void call_step(void) {
    u32 page[MOST_WORDS + 1] = {0, 0, 0, WORD_BEHIND, WORD_BEHIND};
    u64 words = number_to(MOST_WORDS);
    for (int i = 0; i < RECORD; i++) page[i] = (u32)number();
    const u32 before[RECORD] = {page[0], page[1], page[2]};
    u32 key = (u32)number(), book = (u32)number(), requirement = (u32)number(), members = (u32)number();
    if (last != '\n') stop("a line that does not end");
    printf("step %u", dullavane_panel_step(page, words, key, book, requirement, members));
    for (u64 i = 0; i < words; i++) printf(" %u", page[i]);
    for (u64 i = words; i <= MOST_WORDS; i++)
        if (page[i] != (i < RECORD ? before[i] : WORD_BEHIND)) printf(" a word behind the record, which is not lent, has changed");
    printf("\n");
}

int main(void) {
    char kind[8];
    for (u64 line = 1;; line++) {
        u8 *to = text + line % 8; /* a text may stand anywhere */
        word(kind, sizeof kind);
        if (last < 0 && !kind[0]) return 0;
        if (last != ' ') stop("no line");
        if (is(kind, "first")) call_first(to);
        else if (is(kind, "member")) call_member(to);
        else if (is(kind, "phrase")) call_phrase(to);
        else if (is(kind, "step")) call_step();
        else stop("no door");
    }
}
