/* bench/report.c: rows of the performance report, one after the other, by the call of this PART: WRITE (dullavane_report_row, from their numbers), READ
   (dullavane_report_read, right rows), WRONG (the same, rows that are never written), BOOK (dullavane_report, all rows of a book of N units with GROUPED units
   that is written by dullavane_write and taken by the calls). Prints a line a call: a name, for rows of one kind the same, and how many bytes of stack the call
   took. Fails where a reply is not the one that such a row has. bench/report counts the instructions. */
#include "dullavane.h"

int printf(const char *form, ...);
void exit(int status);

enum { WRITE, READ, WRONG, BOOK };
/* Which units have a group: none, each two in a row, all of them one. */
enum { NONE, PAIRS, ONE };
#ifndef N
#define N 1
#define GROUPED NONE
#endif

enum { BYTES = DULLAVANE_REPORT_BYTES, LATE = DULLAVANE_LAST_INTERVAL, DATES = 200, LONG = 4096, VERSION = 12 };

/* 17/11/2026 11:05:00. */
enum { COMMON = 9817 * 288 + 133 };

#define LENT(list) list, sizeof(list) / sizeof(list[0])

/* The stack is painted before a call. After it the painted bytes are looked at by a function of the same frame, from the deepest on: what the call took goes
   from the stack pointer of the function that made it to the lowest byte that has changed. */
enum { DEPTH = 1 << 13, PAINT = 0xa5 };

__attribute__((always_inline)) static inline uintptr_t stack_pointer(void) {
    uintptr_t here;
    __asm__ volatile("mov %%rsp, %0" : "=r"(here));
    return here;
}

__attribute__((noinline)) static unsigned stack(int paint, uintptr_t top) {
    volatile uint8_t below[DEPTH];
    int i = 0;
    /* For the compiler, which else takes them for bytes without a value: they hold what was left there. */
    __asm__ volatile("" : : "r"(below) : "memory");
    if (paint) {
        for (; i < DEPTH; i++) below[i] = PAINT;
    } else {
        while (i < DEPTH && below[i] == PAINT) i++;
    }
    return (unsigned)(top - (uintptr_t)(below + i));
}

static void check(int holds, const char *name) {
    if (holds) return;
    printf("%s: not the reply of such a row\n", name);
    exit(1);
}

/* A row by its numbers, and its text. */
typedef struct {
    uint32_t interval, residual, number;
    int64_t raise;
    uint32_t raise_type;
    int64_t lower;
    uint32_t lower_type, version;
} Row;

static const Row shortest = {0, 0, 1, 0, DULLAVANE_TYPE_DEFAULT, 0, DULLAVANE_TYPE_DEFAULT, 1};
static const Row common = {COMMON, 0, 1234, -92345678901, DULLAVANE_TYPE_CALCULATED, 43210987654, DULLAVANE_TYPE_CALCULATED, VERSION};
static const Row longest = {LATE, 1, 4, INT64_MIN, DULLAVANE_TYPE_CALCULATED, INT64_MIN, DULLAVANE_TYPE_CALCULATED, 65535};
/* The same of a unit of five digits, which are more to read than a residual's words. */
static const Row long_unit = {LATE, 0, 65535, INT64_MIN, DULLAVANE_TYPE_CALCULATED, INT64_MIN, DULLAVANE_TYPE_CALCULATED, 65535};

static uint8_t text[LONG + BYTES];
static int64_t numbers[DULLAVANE_REPORT_NUMBERS];

/* Each call in a function of its own, so that the arguments on the stack are counted. */
__attribute__((noinline)) static uint64_t call_row(const Row *row, uint64_t bytes) {
    return dullavane_report_row(row->interval, row->residual, row->number, row->raise, row->raise_type, row->lower, row->lower_type, row->version, text, bytes);
}

__attribute__((noinline)) static uint64_t call_read(uint64_t bytes) { return dullavane_report_read(text, bytes, LENT(numbers)); }

static Row dated(Row row, uint32_t interval) {
    row.interval = interval;
    return row;
}

/* The interval of one of so many dates, from the first to the last. */
static uint32_t date(uint32_t i) { return (uint32_t)((uint64_t)LATE * i / (DATES - 1)); }

static uint64_t length_of(const Row *row) {
    uint64_t reply = call_row(row, BYTES);
    check(DULLAVANE_REFUSAL(reply) == 0, "a row");
    return DULLAVANE_LENGTH(reply);
}

static void write_row(const char *name, Row row, uint64_t bytes, uint32_t refusal, uint32_t length) {
    uintptr_t top = stack_pointer();
    stack(1, top);
    uint64_t reply = call_row(&row, bytes);
    unsigned taken = stack(0, top);
    check(DULLAVANE_REFUSAL(reply) == refusal && (!length || DULLAVANE_LENGTH(reply) == length), name);
    printf("%s\t%u\n", name, taken);
}

static void write_rows(void) {
    write_row("shortest, 64 bytes", shortest, BYTES, 0, 64);
    write_row("common, 76 bytes", common, BYTES, 0, 76);
    write_row("common, at the last interval", dated(common, LATE), BYTES, 0, 76);
    write_row("longest, 106 bytes", longest, BYTES, 0, BYTES);
    write_row("longest of a unit, 98 bytes", long_unit, BYTES, 0, 98);
    for (uint32_t i = 0; i < DATES; i++) write_row("longest of a unit, 200 dates", dated(long_unit, date(i)), BYTES, 0, 98);
    write_row("refused with 12: longest, text of 105 bytes", longest, BYTES - 1, 12, 0);
    write_row("refused with 15: an interval too late", dated(longest, LATE + 1), BYTES, 15, 0);
}

/* What is read of the bytes that stand in the text: the row, or a wrong column, any where it is not told. */
static void read_text(const char *name, uint64_t bytes, const Row *row, uint32_t column) {
    uintptr_t top = stack_pointer();
    numbers[DULLAVANE_REPORT_INTERVAL] = -1;
    stack(1, top);
    uint64_t reply = call_read(bytes);
    unsigned taken = stack(0, top);
    if (row) {
        check(reply == 0 && numbers[DULLAVANE_REPORT_INTERVAL] == row->interval && numbers[DULLAVANE_REPORT_VERSION] == row->version, name);
    } else {
        check(DULLAVANE_REFUSAL(reply) == 18 && (!column || DULLAVANE_T(reply) == column), name);
    }
    printf("%s\t%u\n", name, taken);
}

static void read_row(const char *name, Row row) { read_text(name, length_of(&row), &row, 0); }

static void read_rows(void) {
    read_row("shortest, 64 bytes", shortest);
    read_row("common, 76 bytes", common);
    read_row("common, at the last interval", dated(common, LATE));
    read_row("longest, 106 bytes", longest);
    read_row("longest of a unit, 98 bytes", long_unit);
    for (uint32_t i = 0; i < DATES; i++) read_row("longest of a unit, 200 dates", dated(long_unit, date(i)));
}

static void put_in(uint64_t bytes, uint64_t at, uint8_t byte) {
    for (uint64_t i = bytes; i > at; i--) text[i] = text[i - 1];
    text[at] = byte;
}

static int is_digit(uint8_t byte) { return byte >= '0' && byte <= '9'; }

/* A row that is cut, or has a byte more or another, at any place. Another digit would make a right row of some. */
static void wrong_places(Row row) {
    uint64_t bytes = length_of(&row);
    for (uint64_t at = 0; at < bytes; at++) {
        length_of(&row);
        read_text("cut at any byte", at, 0, 0);
        length_of(&row);
        put_in(bytes, at, ' ');
        read_text("a space put in anywhere", bytes + 1, 0, 0);
        length_of(&row);
        put_in(bytes, at, ',');
        read_text("a comma put in anywhere", bytes + 1, 0, 0);
        length_of(&row);
        if (is_digit(text[at])) continue;
        text[at] ^= 1;
        read_text("a byte, no digit, for another anywhere", bytes, 0, 0);
    }
}

/* One column of a right row stretched by so many zeros put in before it. */
static void stretched(const char *name, uint64_t at, uint64_t zeros, uint32_t column) {
    uint64_t bytes = length_of(&longest);
    for (uint64_t i = bytes; i > at; i--) text[i - 1 + zeros] = text[i - 1];
    for (uint64_t i = 0; i < zeros; i++) text[at + i] = '0';
    read_text(name, bytes + zeros, 0, column);
}

static void wrong_rows(void) {
    uint64_t bytes = length_of(&longest);
    read_text("longest, its line feed missing", bytes - 1, 0, 7);
    length_of(&longest);
    put_in(bytes, bytes, '\n');
    read_text("longest, a second line feed, 107 bytes", bytes + 1, 0, 7);
    length_of(&longest);
    put_in(bytes, bytes, '0');
    read_text("longest, a zero behind it, 107 bytes", bytes + 1, 0, 7);
    length_of(&longest);
    put_in(bytes, bytes - 6, '0');
    read_text("longest, a zero before its version, 107 bytes", bytes + 1, 0, 7);
    wrong_places(shortest);
    wrong_places(common);
    wrong_places(longest);
    wrong_places(long_unit);
    stretched("apart: 4,096 zeros before the date", 0, LONG, 1);
    stretched("apart: 4,096 zeros before the version", bytes - 6, LONG, 7);
}

/* A book, as dullavane_write takes it. */
enum { REGIONS = DULLAVANE_REGIONS, POINTS = DULLAVANE_POINTS, QUALITIES = DULLAVANE_QUALITY_BYTES };

static int64_t region_rows[REGIONS * DULLAVANE_REGION_ROW], unit_rows[N * DULLAVANE_UNIT_ROW], requirement_rows[DULLAVANE_REQUIREMENT_ROW];
static uint8_t region_qualities[REGIONS * QUALITIES], unit_qualities[N * QUALITIES];
static uint32_t frequencies[REGIONS * POINTS];
static int32_t readings[N * POINTS];
static uint8_t book[DULLAVANE_BOOK_SIZE(N, 1)];

/* Numbers of any size, the same in every run. */
static uint64_t state = 20261117;

static int64_t any(int64_t from, int64_t most) {
    state = state * 6364136223846793005u + 1442695040888963407u;
    return from + (int64_t)((state >> 11) % (uint64_t)(most - from + 1));
}

static void all_good(uint8_t *qualities) {
    for (int t = 0; t < POINTS; t++) qualities[t / 8] |= (uint8_t)(1 << t % 8);
}

/* Low for half of the interval, then high: both directions are reliable, and performances are calculated. */
static void make_regions(void) {
    for (int r = 0; r < REGIONS; r++) {
        int64_t *row = region_rows + DULLAVANE_REGION_ROW * r;
        row[DULLAVANE_REGION_GENERATION] = any(100000, 600000);
        for (int i = 0; i < 6; i++) row[DULLAVANE_REGION_DEFAULTS + i] = any(-1000000000000, 0);
        all_good(region_qualities + QUALITIES * r);
        for (int t = 0; t < POINTS; t++) frequencies[POINTS * r + t] = (uint32_t)(50000000 + (t < POINTS / 2 ? -1 : 1) * any(20000, 90000));
    }
}

/* Regions one after another, so that units next to each other are of one; only the first of a group has defaults. Every eighth unit has a bad reading, and
   stands on its defaults. */
static void make_units(void) {
    for (int u = 0; u < N; u++) {
        int64_t *row = unit_rows + DULLAVANE_UNIT_ROW * u, start = any(-40000, 40000);
        int first = GROUPED == NONE || (GROUPED == PAIRS ? u % 2 == 0 : u == 0);
        row[DULLAVANE_UNIT_NUMBER] = 128 * u;
        row[DULLAVANE_UNIT_REGION] = GROUPED == ONE ? 2 : u / 2 % REGIONS;
        row[DULLAVANE_UNIT_KIND] = u % 3 == 2;
        row[DULLAVANE_UNIT_START] = start;
        row[DULLAVANE_UNIT_END] = start + any(-5000, 5000);
        row[DULLAVANE_UNIT_GROUP] = GROUPED == NONE ? 0 : GROUPED == PAIRS ? u / 2 + 1 : 1;
        for (int i = 0; i < 6; i++) row[DULLAVANE_UNIT_DEFAULTS + i] = first ? any(-1000000000000, 0) : 0;
        all_good(unit_qualities + QUALITIES * u);
        for (int t = 0; t < POINTS; t++) readings[POINTS * u + t] = (int32_t)(start + any(-3000, 3000));
        if (GROUPED != ONE && u % 8 == 7) {
            unit_qualities[QUALITIES * u] &= 0xfe;
            readings[POINTS * u] = 0;
        }
    }
}

static void make_requirement(void) {
    requirement_rows[DULLAVANE_REQUIREMENT_SET] = 31;
    requirement_rows[DULLAVANE_REQUIREMENT_ENABLED] = 100003;
}

/* What is kept of it. */
static uint32_t tally[DULLAVANE_TALLY_WORDS];
static int32_t measures[DULLAVANE_MEASURES];
static int64_t sums[DULLAVANE_SUMS], figures[DULLAVANE_FIGURES], rows[DULLAVANE_ROW * N], deviations[POINTS];
static uint16_t unit_numbers[N], groups[N];
static uint8_t homes[N];

static void take_book(void) {
    const uint8_t *at = book + DULLAVANE_CONTENTS_SIZE;
    uint64_t no = dullavane_contents(LENT(book), LENT(tally));
    no |= dullavane_settings(LENT(tally), at, DULLAVANE_SETTINGS_SIZE);
    at += DULLAVANE_SETTINGS_SIZE;
    for (int r = 0; r < REGIONS; r++) {
        no |= dullavane_frequency(LENT(tally), at, DULLAVANE_FREQUENCY_SIZE, LENT(measures), LENT(sums), LENT(figures));
        at += DULLAVANE_FREQUENCY_SIZE;
    }
    no |= dullavane_units(LENT(tally), at, DULLAVANE_UNIT_SIZE * N, LENT(measures), LENT(sums), LENT(figures), LENT(unit_numbers), LENT(homes), LENT(rows),
                          LENT(groups), LENT(deviations));
    check(no == 0, "a book that is taken");
}

__attribute__((noinline)) static uint64_t call_report(uint32_t row) {
    return dullavane_report(LENT(tally), row, VERSION, LENT(figures), LENT(unit_numbers), LENT(homes), LENT(rows), LENT(text));
}

static void report_row(const char *name, uint32_t row, uint32_t is_residual) {
    uintptr_t top = stack_pointer();
    stack(1, top);
    uint64_t reply = call_report(row);
    unsigned taken = stack(0, top);
    check(DULLAVANE_REFUSAL(reply) == 0, name);
    check(dullavane_report_read(text, DULLAVANE_LENGTH(reply), LENT(numbers)) == 0 && numbers[DULLAVANE_REPORT_INTERVAL] == COMMON &&
              numbers[DULLAVANE_REPORT_RESIDUAL] == is_residual,
          name);
    printf("%s\t%u\n", name, taken);
}

static void report_rows(void) {
    make_regions();
    make_units();
    make_requirement();
    uint64_t reply = dullavane_write(10000, 10, 50, COMMON, LENT(region_rows), LENT(region_qualities), LENT(frequencies), N, LENT(unit_rows),
                                     LENT(unit_qualities), LENT(readings), 1, LENT(requirement_rows), LENT(book));
    check(DULLAVANE_REFUSAL(reply) == 0, "a book that is written");
    take_book();
    uint32_t members = GROUPED == NONE ? N : GROUPED == PAIRS ? (N + 1) / 2 : 1;
    for (uint32_t i = 0; i < members; i++) report_row(i + 1 == members ? "last member" : i == 0 ? "first member" : "members between", i, 0);
    for (uint32_t r = 0; r < REGIONS; r++) report_row("residuals", members + r, 1);
    check(DULLAVANE_REFUSAL(call_report(members + REGIONS)) == 11, "a row past the last");
}

int main(void) {
    if (PART == WRITE) write_rows();
    if (PART == READ) read_rows();
    if (PART == WRONG) wrong_rows();
    if (PART == BOOK) report_rows();
    return 0;
}
