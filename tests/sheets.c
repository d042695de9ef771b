/* Reads a script of sheets, two lines each, performances and factors, and prints of each what the library says of it, in the words of the program `sheet`. Each is
   judged twice: with two words for the verdict and more behind them, which must stay, and with one word alone, which must be refused with 12 and stay too. The C
   library's functions are declared here by hand, so that the kit's own compiler builds this with no header of a C library. */
#include "dullavane.h"

typedef uint64_t u64;
typedef int64_t i64;
extern int getchar(void);
extern int printf(const char *form, ...);
extern void exit(int status);

enum { MOST = 1 << 13, BEHIND = 3, BEFORE = 77, WORDS = DULLAVANE_VERDICT_WORDS + BEHIND };

static i64 performances[MOST], factors[MOST];
static int last; /* the character that ended the word read last */

/* How a line ends: it has so many numbers, a word that is no whole number within 64 bits, or it was not there. */
typedef struct { u64 count; int fine, there; } line;

static int blank(int c) { return c == ' ' || c == '\t' || c == '\r'; }

/* A word from its first character on: is it a whole number? */
static int number(int c, i64 *value) {
    const u64 most = (u64)1 << 63;
    u64 size = 0;
    int fine = 1, digits = 0, minus = c == '-';
    if (c == '-' || c == '+') c = getchar();
    for (; c >= 0 && c != '\n' && !blank(c); c = getchar()) {
        u64 digit = (u64)(c - '0');
        if (c < '0' || c > '9') fine = 0;
        else if (size > most / 10 || 10 * size + digit > most) fine = 0;
        else size = 10 * size + digit;
        digits++;
    }
    last = c;
    if (!minus && size == most) fine = 0;
    *value = minus ? (i64)-size : (i64)size;
    return fine && digits > 0;
}

static line next_line(i64 *room) {
    line read = {0, 1, 0};
    for (last = getchar(); last >= 0 && last != '\n';) {
        read.there = 1;
        if (blank(last)) {
            last = getchar();
            continue;
        }
        i64 value;
        if (!number(last, &value)) read.fine = 0;
        if (read.count >= MOST) {
            printf("bad script: a long list\n");
            exit(1);
        }
        room[read.count++] = value;
    }
    read.there |= last == '\n';
    return read;
}

static void say(uint32_t refusal, const u64 *verdict) {
    /* The program says a place and a t with every refusal, which a sheet's own have not; the door replies the number alone. */
    if (refusal) printf("refused %u 0 0\n", refusal);
    else if (verdict[0] == DULLAVANE_POSSIBLE) printf("possible\n");
    else if (verdict[0] == DULLAVANE_WRONG_MEMBER) printf("wrong member %lu\n", (unsigned long)verdict[1]);
    else if (verdict[0] == DULLAVANE_WRONG_POSITIVE) printf("wrong side positive\n");
    else if (verdict[0] == DULLAVANE_WRONG_NEGATIVE) printf("wrong side negative\n");
    else printf("no such verdict\n");
}

static void judge(u64 members, u64 count) {
    u64 verdict[WORDS], word[DULLAVANE_VERDICT_WORDS] = {BEFORE, BEFORE};
    for (int i = 0; i < WORDS; i++) verdict[i] = BEFORE;
    uint32_t refusal = dullavane_sheet(performances, members, factors, count, verdict, WORDS);
    for (int i = refusal ? 0 : DULLAVANE_VERDICT_WORDS; i < WORDS; i++)
        if (verdict[i] != BEFORE) printf("a word that has to stay has changed: ");
    if (!refusal && verdict[0] != DULLAVANE_WRONG_MEMBER && verdict[1] != 0) printf("a member where none is wrong: ");
    if (dullavane_sheet(performances, members, factors, count, word, 1) != 12 || word[0] != BEFORE || word[1] != BEFORE) printf("one word taken for two: ");
    say(refusal, verdict);
}

int main(void) {
    for (;;) {
        line first = next_line(performances);
        if (!first.there) return 0;
        line second = next_line(factors);
        if (!first.fine) printf("text 1\n");
        else if (!second.fine) printf("text 2\n");
        else judge(first.count, second.count);
    }
}
