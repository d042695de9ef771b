/* box: an interval book on standard input, record by record and its units by runs through the calls of dullavane.h; its listing, or `refused` with number,
   place and t, on standard output: the same bytes as `settle`. Written as firmware would be: no heap, every list of a fixed length, nothing but getchar and
   putchar from outside, which are declared here so that a compiler with no C library builds this too. A box puts its radio or its serial line in their place. */
#include "dullavane.h"

int getchar(void);
int putchar(int c);

/* How many units are handed on in one call. It need not divide their number: the last run of a book is shorter. */
#ifndef RUN
#define RUN 4
#endif

enum { UNITS = DULLAVANE_MOST_UNITS, MEMBERS = UNITS + 1, UNIT = DULLAVANE_UNIT_SIZE, REQUIREMENT = DULLAVANE_REQUIREMENT_SIZE };

/* All that is lent, 65,268 bytes in all with the bytes that are read. */
static uint32_t tally[DULLAVANE_TALLY_WORDS];
static int32_t measures[DULLAVANE_MEASURES];
static int64_t sums[DULLAVANE_SUMS], figures[DULLAVANE_FIGURES];
static uint16_t numbers[UNITS];
static uint8_t homes[UNITS];
static int64_t rows[DULLAVANE_ROW * UNITS];
static uint16_t groups[UNITS];
/* While units are taken, the first column holds the deviations of a group. */
static int64_t performances[MEMBERS], factors[MEMBERS], payments[MEMBERS], used[MEMBERS], unused[MEMBERS];

/* The requirements' bytes are kept until they are answered. The other records come before them and are read into the same bytes. */
enum { KEPT = DULLAVANE_MOST_REQUIREMENTS * REQUIREMENT + 1 };
static uint8_t bytes[RUN * UNIT > KEPT ? RUN * UNIT : KEPT];

#define LENT(list) list, sizeof(list) / sizeof(list[0])

/* As many of the next n bytes as there are. */
static uint64_t take(uint8_t *to, uint64_t n) {
    uint64_t i = 0;
    for (int c; i < n && (c = getchar()) >= 0; i++) to[i] = (uint8_t)c;
    return i;
}

static uint64_t take_frequency(void) {
    uint64_t n = take(bytes, DULLAVANE_FREQUENCY_SIZE);
    return dullavane_frequency(LENT(tally), bytes, n, LENT(measures), LENT(sums), LENT(figures));
}

/* How many units of the book were taken. */
static uint32_t units_taken(void) { return tally[2] - 1 - DULLAVANE_REGIONS; }

/* A run's refusal has its place in the run. The listing has the place among all units of the book: the next one, since those before it are taken. */
static uint64_t placed_in_book(uint64_t no) {
    uint64_t in_run = DULLAVANE_PLACE(no), in_book = units_taken() + 1;
    return no - (in_run << 32) + (in_book << 32);
}

/* The next run of units. Where the input ends within a record, the whole ones before it are handed on first, and then what there is of it. */
static uint64_t take_units(void) {
    uint32_t left = tally[0] - units_taken();
    uint64_t want = UNIT * (uint64_t)(left < RUN ? left : RUN), n = take(bytes, want), whole = n - n % UNIT;
    uint64_t no = dullavane_units(LENT(tally), bytes, whole, LENT(measures), LENT(sums), LENT(figures), LENT(numbers), LENT(homes), LENT(rows),
                                  LENT(groups), LENT(performances));
    if (!no && n < want) {
        no = dullavane_unit(LENT(tally), bytes + whole, n - whole, LENT(measures), LENT(sums), LENT(figures), LENT(numbers), LENT(homes), LENT(rows),
                            LENT(groups), LENT(performances));
    }
    return no ? placed_in_book(no) : 0;
}

/* The last one is handed on with a byte more, if there is one: then bytes follow the book. */
static uint64_t take_requirement(uint32_t i) {
    uint64_t n = take(bytes + REQUIREMENT * i, REQUIREMENT + (i + 1 == tally[1]));
    return dullavane_requirement(LENT(tally), bytes + REQUIREMENT * i, n);
}

/* The whole book, or the first refusal. */
static uint64_t take_book(void) {
    uint64_t n = take(bytes, DULLAVANE_CONTENTS_SIZE);
    uint64_t no = dullavane_contents(bytes, n, LENT(tally));
    if (no) return no;
    n = take(bytes, DULLAVANE_SETTINGS_SIZE);
    no = dullavane_settings(LENT(tally), bytes, n);
    for (uint32_t i = 0; !no && i < DULLAVANE_REGIONS; i++) no = take_frequency();
    while (!no && units_taken() < tally[0]) no = take_units();
    for (uint32_t i = 0; !no && i < tally[1]; i++) no = take_requirement(i);
    return no;
}

static void put_text(const char *text) {
    for (; *text; text++) putchar(*text);
}

static void put_natural(uint64_t x) {
    char digits[20];
    int n = 0;
    do digits[n++] = (char)('0' + x % 10);
    while (x /= 10);
    while (n) putchar(digits[--n]);
}

static void put_integer(int64_t x) {
    putchar(' ');
    if (x < 0) putchar('-');
    put_natural(x < 0 ? -(uint64_t)x : (uint64_t)x);
}

/* A member's standing and five numbers end its line. */
static void put_member(uint64_t standing, uint64_t i) {
    put_text(standing ? " default" : " live");
    put_integer(performances[i]);
    put_integer(factors[i]);
    put_integer(payments[i]);
    put_integer(used[i]);
    put_integer(unused[i]);
    putchar('\n');
}

static uint32_t put_answer(const uint8_t *requirement) {
    uint64_t reply[DULLAVANE_REPLY_WORDS];
    uint32_t no = dullavane_answer(LENT(tally), requirement, REQUIREMENT, LENT(measures), LENT(sums), LENT(figures), LENT(homes), LENT(rows),
                                   LENT(performances), LENT(factors), LENT(payments), LENT(used), LENT(unused), LENT(reply));
    if (no) return no;
    put_text("requirement ");
    put_natural((uint64_t)(requirement[0] + 256 * requirement[1]));
    put_text(requirement[3] ? " lower" : " raise");
    for (int i = DULLAVANE_RCR; i <= DULLAVANE_UNPLACED_UNUSED; i++) put_integer((int64_t)reply[i]);
    putchar('\n');
    uint64_t at = 0;
    for (uint32_t row = 0; row < tally[0]; row++) {
        uint32_t member[DULLAVANE_MEMBER_WORDS];
        no = dullavane_member(LENT(tally), row, requirement[3], requirement[2], LENT(figures), LENT(numbers), LENT(homes), LENT(member));
        if (no) return no;
        if (!member[DULLAVANE_IS_MEMBER]) continue;
        put_text("unit ");
        put_natural(member[DULLAVANE_NUMBER]);
        put_member(member[DULLAVANE_STANDING], at++);
    }
    put_text("residual");
    put_member(reply[DULLAVANE_RESIDUAL], at);
    return 0;
}

int main(void) {
    uint64_t no = take_book();
    if (!no) {
        put_text("interval ");
        put_natural(tally[7]);
        putchar('\n');
    }
    for (uint32_t i = 0; !no && i < tally[1]; i++) no = put_answer(bytes + REQUIREMENT * i);
    if (no) {
        put_text("refused");
        put_integer(DULLAVANE_REFUSAL(no));
        put_integer(DULLAVANE_PLACE(no));
        put_integer(DULLAVANE_T(no));
        putchar('\n');
    }
    return 0;
}
