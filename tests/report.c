/* Reads a script of calls of the performance report's doors (second/README.md, Lines of `reports`) and prints of each line what the library replies and
   leaves. The C library's functions are declared here by hand, so that the kit's own compiler builds this with no header of a C library. */
#include "dullavane.h"

typedef uint8_t u8;
typedef uint16_t u16;
typedef uint32_t u32;
typedef uint64_t u64;
typedef int32_t i32;
typedef int64_t i64;
extern int getchar(void);
extern int putchar(int character);
extern int printf(const char *form, ...);
extern void exit(int status);

/* Bytes or numbers behind what is lent, which are not lent; the most bytes of a row that is read, of a text and of a book, and the most numbers of a list. */
enum { BEHIND = 3, MOST_ROW = 1 << 13, MOST_TEXT = 1 << 12, MOST_NUMBERS = 64, MOST_BOOK = 1 << 18, MOST_LIST = 8 * DULLAVANE_MOST_UNITS, MOST_CHANGES = 4 };

/* What a text holds before a call, over and over: bytes that no row has. What the first number holds, and each one after it 1 more. What a list holds. */
static const char text_before[] = "!#$&()*+<=>?@";
enum { TEXT_CYCLE = sizeof text_before - 1, LIST_BEFORE = 99 };
static const i64 number_before = 7777777777;

static u8 row[MOST_ROW + 8], text[MOST_TEXT + BEHIND + 8], book[MOST_BOOK];
static i64 numbers[MOST_NUMBERS + BEHIND];
static int last; /* the character that ended what was read last */

static void stop(const char *why) {
    printf("bad script: %s\n", why);
    exit(1);
}

/* The next number, a minus before it where it is below zero. */
static u64 number(void) {
    u64 size = 0, digits = 0;
    int first = getchar(), minus = first == '-';
    for (last = minus ? getchar() : first; last >= '0' && last <= '9'; last = getchar()) {
        size = size * 10 + (u64)(last - '0');
        digits++;
    }
    if (!digits || (last != ' ' && last != '\n')) stop("no number");
    return minus ? -size : size;
}

static u64 number_to(u64 most) {
    u64 value = number();
    if (value > most) stop("a number that is too large");
    return value;
}

static int hex_digit(int character) {
    if (character >= '0' && character <= '9') return character - '0';
    if (character >= 'a' && character <= 'f') return character - 'a' + 10;
    stop("no digit");
    return 0;
}

static u8 hex_byte(int first) {
    int high = hex_digit(first);
    return (u8)(16 * high + hex_digit(getchar()));
}

/* The next word; `last` is what follows it. */
static void word(char *to, u64 most) {
    u64 length = 0;
    for (last = getchar(); last > ' '; last = getchar()) {
        if (length + 1 == most) stop("a long word");
        to[length++] = (char)last;
    }
    to[length] = 0;
}

static int is(const char *one, const char *other) {
    for (; *one && *one == *other; one++) other++;
    return *one == *other;
}

static u64 checksum(const void *bytes, u64 count) {
    u64 sum = 0xcbf29ce484222325ul;
    for (u64 i = 0; i < count; i++) sum = (sum ^ ((const u8 *)bytes)[i]) * 0x100000001b3ul;
    return sum;
}

/* Plain characters as they are, all others and the backslash as `\` and two hexadecimal digits. */
static void print_text(const u8 *from, u64 count) {
    static const char digits[] = "0123456789abcdef";
    for (u64 i = 0; i < count; i++) {
        if (from[i] >= ' ' && from[i] <= '~' && from[i] != '\\') {
            putchar(from[i]);
            continue;
        }
        putchar('\\');
        putchar(digits[from[i] >> 4]);
        putchar(digits[from[i] & 15]);
    }
}

static void fill_text(u8 *to, u64 bytes) {
    for (u64 i = 0; i < bytes + BEHIND; i++) to[i] = (u8)text_before[i % TEXT_CYCLE];
}

/* The reply's number and the 32 bits above it, then every byte of the text and those behind it. */
static void print_written(const char *door, u64 reply, const u8 *from, u64 bytes) {
    printf("%s %u %u text ", door, DULLAVANE_REFUSAL(reply), DULLAVANE_LENGTH(reply));
    print_text(from, bytes + BEHIND);
}

static void call_row(u64 line) {
    u32 interval = (u32)number(), residual = (u32)number(), who = (u32)number();
    i64 raise = (i64)number();
    u32 raise_type = (u32)number();
    i64 lower = (i64)number();
    u32 lower_type = (u32)number(), version = (u32)number();
    u64 bytes = number_to(MOST_TEXT);
    if (last != '\n') stop("a row that does not end");
    u8 *to = text + line % 8; /* a text may stand anywhere */
    fill_text(to, bytes);
    print_written("row", dullavane_report_row(interval, residual, who, raise, raise_type, lower, lower_type, version, to, bytes), to, bytes);
    printf("\n");
}

/* The rest of the line as bytes. */
static u64 escaped_bytes(u8 *to) {
    u64 bytes = 0;
    for (int character = getchar(); character != '\n'; character = getchar()) {
        if (character < 0 || bytes == MOST_ROW) stop("no text");
        to[bytes++] = character == '\\' ? hex_byte(getchar()) : (u8)character;
    }
    return bytes;
}

static void call_read(u64 line) {
    u64 count = number_to(MOST_NUMBERS);
    if (last != ' ') stop("no row");
    u8 *from = row + line % 8;
    u64 bytes = escaped_bytes(from), before = checksum(row, sizeof row);
    for (u64 i = 0; i < count + BEHIND; i++) numbers[i] = number_before + (i64)i;
    u64 reply = dullavane_report_read(from, bytes, numbers, count);
    printf("read %u %u %u numbers", DULLAVANE_REFUSAL(reply), DULLAVANE_PLACE(reply), DULLAVANE_T(reply));
    for (u64 i = 0; i < count + BEHIND; i++) printf(" %ld", (long)numbers[i]);
    printf(before == checksum(row, sizeof row) ? "\n" : " the row, which is only read, has changed\n");
}

/* What is kept of a book, and for one call alone how long each list is lent. */
static u32 tally[DULLAVANE_TALLY_WORDS + BEHIND];
static i32 measures[DULLAVANE_MEASURES];
static i64 sums[DULLAVANE_SUMS], figures[DULLAVANE_FIGURES + BEHIND], rows[MOST_LIST + BEHIND], deviations[DULLAVANE_POINTS];
static u16 unit_numbers[DULLAVANE_MOST_UNITS + BEHIND], groups[DULLAVANE_MOST_UNITS];
static u8 homes[DULLAVANE_MOST_UNITS + BEHIND];

enum { TALLY, FIGURES, NUMBERS, HOMES, ROWS, LISTS };
static const struct { const char *name; void *at; u32 width, most; } lists[LISTS] = {
    {"tally", tally, 4, sizeof tally / 4}, {"figures", figures, 8, sizeof figures / 8}, {"numbers", unit_numbers, 2, sizeof unit_numbers / 2},
    {"homes", homes, 1, sizeof homes}, {"rows", rows, 8, sizeof rows / 8}};
static u64 lent[LISTS];

static i64 get(int list, u64 place) {
    if (lists[list].width == 1) return ((u8 *)lists[list].at)[place];
    if (lists[list].width == 2) return ((u16 *)lists[list].at)[place];
    if (lists[list].width == 4) return ((u32 *)lists[list].at)[place];
    return ((i64 *)lists[list].at)[place];
}

static void set(int list, u64 place, i64 value) {
    if (lists[list].width == 1) ((u8 *)lists[list].at)[place] = (u8)value;
    else if (lists[list].width == 2) ((u16 *)lists[list].at)[place] = (u16)value;
    else if (lists[list].width == 4) ((u32 *)lists[list].at)[place] = (u32)value;
    else ((i64 *)lists[list].at)[place] = value;
}

static void lend_anew(u64 units) {
    const u64 lengths[LISTS] = {DULLAVANE_TALLY_WORDS, DULLAVANE_FIGURES, units, units, DULLAVANE_ROW * units};
    for (int list = 0; list < LISTS; list++) {
        lent[list] = lengths[list];
        for (u64 i = 0; i < lists[list].most; i++) set(list, i, LIST_BEFORE);
    }
    for (u32 i = 0; i < DULLAVANE_MEASURES; i++) measures[i] = LIST_BEFORE;
    for (u32 i = 0; i < DULLAVANE_SUMS; i++) sums[i] = LIST_BEFORE;
    for (u32 i = 0; i < DULLAVANE_MOST_UNITS; i++) groups[i] = LIST_BEFORE;
    for (u32 i = 0; i < DULLAVANE_POINTS; i++) deviations[i] = LIST_BEFORE;
}

/* Takes the record whose turn it is, as the tally counts, and answers how far it moves the book on. */
static u64 take_record(const u8 *part, u64 bytes, u64 *size) {
    u32 taken = tally[2];
    if (taken == 0) {
        *size = DULLAVANE_SETTINGS_SIZE;
        return dullavane_settings(tally, DULLAVANE_TALLY_WORDS, part, bytes);
    }
    if (taken <= DULLAVANE_REGIONS) {
        *size = DULLAVANE_FREQUENCY_SIZE;
        return dullavane_frequency(tally, DULLAVANE_TALLY_WORDS, part, bytes, measures, DULLAVANE_MEASURES, sums, DULLAVANE_SUMS, figures, DULLAVANE_FIGURES);
    }
    if (taken <= DULLAVANE_REGIONS + tally[0]) {
        *size = DULLAVANE_UNIT_SIZE;
        return dullavane_unit(tally, DULLAVANE_TALLY_WORDS, part, bytes, measures, DULLAVANE_MEASURES, sums, DULLAVANE_SUMS, figures, DULLAVANE_FIGURES,
                              unit_numbers, lent[NUMBERS], homes, lent[HOMES], rows, lent[ROWS], groups, DULLAVANE_MOST_UNITS, deviations, DULLAVANE_POINTS);
    }
    *size = DULLAVANE_REQUIREMENT_SIZE;
    return dullavane_requirement(tally, DULLAVANE_TALLY_WORDS, part, bytes);
}

static u64 take_book(u64 records, u64 bytes) {
    u64 at = DULLAVANE_CONTENTS_SIZE, size = 0, reply;
    lend_anew(0);
    reply = dullavane_contents(book, bytes, tally, DULLAVANE_TALLY_WORDS);
    if (reply) return reply;
    u32 units = tally[0], all = 1 + DULLAVANE_REGIONS + tally[0] + tally[1];
    lend_anew(units);
    reply = dullavane_contents(book, bytes, tally, DULLAVANE_TALLY_WORDS);
    for (u64 record = 0; !reply && record < records && record < all; record++) {
        u64 from = at < bytes ? at : bytes;
        reply = take_record(book + from, bytes - from, &size);
        at += size;
    }
    return reply;
}

static void call_book(void) {
    u64 records = number(), bytes = 0;
    if (last != ' ') stop("no book");
    int character = getchar();
    if (character == '-') character = getchar();
    for (; character != '\n'; character = getchar()) {
        if (character < 0 || bytes == MOST_BOOK) stop("no book");
        book[bytes++] = hex_byte(character);
    }
    u64 reply = take_book(records, bytes);
    printf("book %u %u %u\n", DULLAVANE_REFUSAL(reply), DULLAVANE_PLACE(reply), DULLAVANE_T(reply));
}

static int list_named(const char *name) {
    for (int list = 0; list < LISTS; list++)
        if (is(lists[list].name, name)) return list;
    stop("no list");
    return 0;
}

/* What is changed for one call alone, and how it was. */
static struct { int list, is_length; u64 place; i64 before; } changes[MOST_CHANGES];
static int changed;

static void next_change(void) {
    char kind[8], name[16];
    word(kind, sizeof kind);
    word(name, sizeof name);
    if (changed == MOST_CHANGES) stop("many changes");
    int list = list_named(name), is_length = is(kind, "lend");
    if (!is_length && !is(kind, "put")) stop("no change");
    u64 place = number_to(lists[list].most);
    changes[changed].list = list;
    changes[changed].is_length = is_length;
    changes[changed].place = place;
    if (is_length) {
        changes[changed++].before = (i64)lent[list];
        lent[list] = place;
        return;
    }
    if (place == lists[list].most || last != ' ') stop("no place");
    changes[changed++].before = get(list, place);
    set(list, place, (i64)number());
}

static void undo(void) {
    while (changed) {
        changed--;
        if (changes[changed].is_length) lent[changes[changed].list] = (u64)changes[changed].before;
        else set(changes[changed].list, changes[changed].place, changes[changed].before);
    }
}

static u64 lists_checksum(void) {
    u64 sum = 0;
    for (int list = 0; list < LISTS; list++) sum = 31 * sum + checksum(lists[list].at, (u64)lists[list].width * lists[list].most);
    return sum;
}

static void call_report(u64 line) {
    u32 place = (u32)number(), version = (u32)number();
    u64 bytes = number_to(MOST_TEXT);
    while (last == ' ') next_change();
    u8 *to = text + line % 8;
    fill_text(to, bytes);
    u64 before = lists_checksum();
    u64 reply = dullavane_report(tally, lent[TALLY], place, version, figures, lent[FIGURES], unit_numbers, lent[NUMBERS], homes, lent[HOMES], rows, lent[ROWS],
                                 to, bytes);
    print_written("report", reply, to, bytes);
    printf(before == lists_checksum() ? "\n" : " a list, which is only read, has changed\n");
    undo();
}

int main(void) {
    char kind[8];
    for (u64 line = 1;; line++) {
        word(kind, sizeof kind);
        if (last < 0 && !kind[0]) return 0;
        if (last != ' ') stop("no line");
        if (is(kind, "row")) call_row(line);
        else if (is(kind, "read")) call_read(line);
        else if (is(kind, "book")) call_book();
        else if (is(kind, "report")) call_report(line);
        else stop("no door");
    }
}
