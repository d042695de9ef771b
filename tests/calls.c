/* Reads a script of calls (second/README.md, Lines of `calls`) and prints of each call what the library replies and leaves. The C
   library's functions are declared here by hand, so that the kit's own compiler builds this with no header of a C library. */
#include "dullavane.h"

typedef uint8_t u8;
typedef uint16_t u16;
typedef uint32_t u32;
typedef uint64_t u64;
typedef int32_t i32;
typedef int64_t i64;
extern int getchar(void);
extern int printf(const char *form, ...);
extern void exit(int status);
extern int strcmp(const char *a, const char *b);

enum {
    TALLY, MEASURES, SUMS, FIGURES, NUMBERS, HOMES, ROWS, GROUPS, DEVIATIONS, PERFORMANCES, FACTORS, PAYMENTS, USED, UNUSED, REPLY, MEMBER, LISTS
};
/* The longest word is a run of some more than 512 units in hexadecimal. */
enum { MOST = 8 * 512 + 64, BEHIND = 3, LONGEST_WORD = 1 << 20, MOST_BYTES = LONGEST_WORD / 2 };

/* A list: the bytes of one of its numbers, whether they have a sign, how many are lent, how many stand there. */
static struct list { const char *name; u32 width, sign; u64 lent, there; } lists[LISTS] = {
    {"tally", 4, 0, 0, 0}, {"measures", 4, 1, 0, 0}, {"sums", 8, 1, 0, 0}, {"figures", 8, 1, 0, 0}, {"numbers", 2, 0, 0, 0},
    {"homes", 1, 0, 0, 0}, {"rows", 8, 1, 0, 0}, {"groups", 2, 0, 0, 0}, {"deviations", 8, 1, 0, 0}, {"performances", 8, 1, 0, 0}, {"factors", 8, 1, 0, 0},
    {"payments", 8, 1, 0, 0}, {"used", 8, 1, 0, 0}, {"unused", 8, 1, 0, 0}, {"reply", 8, 0, 0, 0}, {"member", 4, 0, 0, 0}};
static u64 room[LISTS][MOST];
/* All that was lent when it was last stored. */
static struct list stored[LISTS];
static u64 stored_room[LISTS][MOST];
static char word[LONGEST_WORD];
/* The bytes of a call: those of its own word, or some of those that are kept. */
static u8 own[MOST_BYTES], kept[2 * MOST_BYTES];
static const u8 *part;

static void stop(const char *why) {
    printf("bad script: %s %s\n", why, word);
    exit(1);
}

/* The next word; answers whether the line goes on after it, -1 at the end of the input. */
static int next_word(void) {
    int n = 0, c = getchar();
    if (c < 0) return -1;
    for (; c >= 0 && c != ' ' && c != '\n'; c = getchar()) {
        if (n == LONGEST_WORD - 1) stop("a long word");
        word[n++] = (char)c;
    }
    word[n] = 0;
    return c == ' ';
}

/* The number that the word begins with. */
static u64 number(void) {
    u64 size = 0;
    for (const char *at = word + (word[0] == '-'); *at && *at != ':'; at++) size = size * 10 + (u64)(*at - '0');
    return word[0] == '-' ? -size : size;
}

static u64 next_number(void) {
    next_word();
    return number();
}

static int next_list(void) {
    next_word();
    for (int i = 0; i < LISTS; i++)
        if (!strcmp(lists[i].name, word)) return i;
    stop("no list");
    return 0;
}

static void set(int list, u64 place, u64 value) {
    if (place >= MOST) stop("a place");
    if (lists[list].width == 1) ((u8 *)room[list])[place] = (u8)value;
    else if (lists[list].width == 2) ((u16 *)room[list])[place] = (u16)value;
    else if (lists[list].width == 4) ((u32 *)room[list])[place] = (u32)value;
    else room[list][place] = value;
}

static u64 get(int list, u64 place) {
    if (lists[list].width == 1) return ((u8 *)room[list])[place];
    if (lists[list].width == 2) return ((u16 *)room[list])[place];
    if (lists[list].width == 4) return lists[list].sign ? (u64)(i64)((i32 *)room[list])[place] : ((u32 *)room[list])[place];
    return room[list][place];
}

static void print_list(int list) {
    printf(" %s", lists[list].name);
    u64 sum = 0xcbf29ce484222325ul;
    for (u64 i = 0; i < lists[list].there; i++) {
        if (list == TALLY) printf(" %lu", get(list, i));
        sum = (sum ^ get(list, i)) * 0x100000001b3ul;
    }
    if (list != TALLY) printf(" %016lx", sum);
}

static u64 hex_digit(char c) { return (u64)(c <= '9' ? c - '0' : c - 'a' + 10); }

/* The bytes of a word in hexadecimal, and how many they are; `-` is none. */
static u64 take_bytes(u8 *to) {
    u64 bytes = 0;
    if (word[0] == '-') return 0;
    for (; word[2 * bytes]; bytes++) to[bytes] = (u8)(hex_digit(word[2 * bytes]) << 4 | hex_digit(word[2 * bytes + 1]));
    return bytes;
}

static const char *after_colon(void) {
    const char *at = word;
    while (*at && *at != ':') at++;
    return *at ? at + 1 : 0;
}

/* A call's bytes: the word's own, or with FROM:COUNT so many of the kept ones. */
static u64 take_part(void) {
    const char *at = after_colon();
    u64 from, count = 0;
    part = own;
    if (!at) return take_bytes(own);
    from = number();
    for (; *at; at++) count = count * 10 + (u64)(*at - '0');
    if (from > MOST_BYTES || count > MOST_BYTES) stop("no such bytes");
    part = kept + from;
    return count;
}

static void keep(void) {
    u64 place = next_number();
    next_word();
    if (place > MOST_BYTES) stop("a place");
    take_bytes(kept + place);
}

/* Copies all that is lent, as far as it is there. */
static void copy_lists(struct list *to, u64 (*to_room)[MOST], const struct list *from, u64 (*from_room)[MOST]) {
    for (int i = 0; i < LISTS; i++) {
        to[i] = from[i];
        for (u64 at = 0; at < from[i].there; at++) to_room[i][at] = from_room[i][at];
    }
}

/* A word of four bytes of the part; a missing byte is 0. */
static u32 part_word(u64 place, u64 bytes) {
    u32 word = 0;
    for (u64 i = 4 * place + 4; i-- > 4 * place;) word = word << 8 | (i < bytes ? part[i] : 0);
    return word;
}

#define LENT(list) room[list], lists[list].lent
#define LENT_AS(type, list) (type *)room[list], lists[list].lent
#define TALLY_AND_PART LENT_AS(u32, TALLY), part, bytes
#define SERIES_AND_FIGURES LENT_AS(i32, MEASURES), LENT_AS(i64, SUMS), LENT_AS(i64, FIGURES)
#define UNIT_LISTS SERIES_AND_FIGURES, LENT_AS(u16, NUMBERS), LENT_AS(u8, HOMES), LENT_AS(i64, ROWS), LENT_AS(u16, GROUPS), LENT_AS(i64, DEVIATIONS)
#define COLUMNS LENT_AS(i64, PERFORMANCES), LENT_AS(i64, FACTORS), LENT_AS(i64, PAYMENTS), LENT_AS(i64, USED), LENT_AS(i64, UNUSED)

/* Prints a call's reply and what its lists hold after it: of a call that takes a book number, place and t, of the others, which take no record of a body, the
   number alone. */
static void print_call(const char *kind, u64 reply, int takes_a_book, const int *lent, int count) {
    printf("%s %u", kind, DULLAVANE_REFUSAL(reply));
    if (takes_a_book) printf(" %u %u", DULLAVANE_PLACE(reply), DULLAVANE_T(reply));
    for (int i = 0; i < count; i++) print_list(lent[i]);
    printf("\n");
}
#define PRINT(kind, reply, lent) print_call(kind, reply, 1, lent, (int)(sizeof(lent) / sizeof(lent[0])))
#define PRINT_NUMBER(kind, reply, lent) print_call(kind, reply, 0, lent, (int)(sizeof(lent) / sizeof(lent[0])))

static void call(void) {
    static const int tally[] = {TALLY}, frequency[] = {TALLY, MEASURES, SUMS, FIGURES};
    static const int unit[] = {TALLY, MEASURES, SUMS, FIGURES, NUMBERS, HOMES, ROWS, GROUPS, DEVIATIONS}, member[] = {TALLY, FIGURES, NUMBERS, HOMES, MEMBER};
    static const int answer[] = {TALLY, MEASURES, SUMS, FIGURES, HOMES, ROWS, PERFORMANCES, FACTORS, PAYMENTS, USED, UNUSED, REPLY};
    next_word();
    char kind = word[0];
    int is_run = !strcmp(word, "units");
    next_word();
    u64 bytes = take_part();
    if (kind == 'c') PRINT("contents", dullavane_contents(part, bytes, LENT_AS(u32, TALLY)), tally);
    else if (kind == 's') PRINT("settings", dullavane_settings(TALLY_AND_PART), tally);
    else if (kind == 'f') PRINT("frequency", dullavane_frequency(TALLY_AND_PART, SERIES_AND_FIGURES), frequency);
    else if (is_run) PRINT("units", dullavane_units(TALLY_AND_PART, UNIT_LISTS), unit);
    else if (kind == 'u') PRINT("unit", dullavane_unit(TALLY_AND_PART, UNIT_LISTS), unit);
    else if (kind == 'r') PRINT("requirement", dullavane_requirement(TALLY_AND_PART), tally);
    else if (kind == 'a')
        PRINT_NUMBER("answer", dullavane_answer(TALLY_AND_PART, SERIES_AND_FIGURES, LENT_AS(u8, HOMES), LENT_AS(i64, ROWS), COLUMNS, LENT(REPLY)), answer);
    else if (kind == 'm')
        PRINT_NUMBER("member", dullavane_member(LENT_AS(u32, TALLY), part_word(0, bytes), part_word(1, bytes), part_word(2, bytes), LENT_AS(i64, FIGURES),
                                                LENT_AS(u16, NUMBERS), LENT_AS(u8, HOMES), LENT_AS(u32, MEMBER)), member);
    else stop("no call");
}

/* A line that lends a list: `lend`, `list` or `put`, by a letter of it. */
static void lend(char order) {
    int list = next_list();
    u64 first = next_number();
    if (order == 'e') {
        lists[list].lent = first;
    } else if (order == 'i') {
        u64 value = next_number();
        lists[list].lent = first;
        lists[list].there = first + BEHIND;
        for (u64 i = 0; i < first + BEHIND; i++) set(list, i, value);
    } else {
        for (int on = 1; on == 1;) {
            on = next_word();
            set(list, first++, number());
        }
    }
}

int main(void) {
    for (int more = next_word(); more >= 0; more = next_word()) {
        if (!strcmp(word, "call")) call();
        else if (!strcmp(word, "keep")) keep();
        else if (!strcmp(word, "store")) copy_lists(stored, stored_room, lists, room);
        else if (!strcmp(word, "recall")) copy_lists(lists, room, stored, stored_room);
        else lend(word[0] == 'p' ? 'p' : word[1]);
    }
    return 0;
}
