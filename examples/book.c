/* book: writes a book from its values with dullavane_write, the one that document 01 shows in full, hands its bytes to the calls that take a book, and prints
   its listing: the same bytes as `settle` prints of it. With any argument it prints the bytes of the book instead. No heap; the C library's two functions are
   declared here. */
#include "dullavane.h"

int printf(const char *form, ...);
int putchar(int c);

enum { UNITS = 2, REQUIREMENTS = 1, REGIONS = DULLAVANE_REGIONS, POINTS = DULLAVANE_POINTS, QUALITY = DULLAVANE_QUALITY_BYTES };

/* Of a row's six defaults: payment, used, unused for raise, then the same for lower. */
enum { RAISE_UNUSED = 2 };

/* What is handed in; a number that is not set is 0. */
static int64_t region_rows[REGIONS * DULLAVANE_REGION_ROW], unit_rows[UNITS * DULLAVANE_UNIT_ROW], requirement_rows[REQUIREMENTS * DULLAVANE_REQUIREMENT_ROW];
static uint8_t region_qualities[REGIONS * QUALITY], unit_qualities[UNITS * QUALITY];
static uint32_t frequencies[REGIONS * POINTS];
static int32_t readings[UNITS * POINTS];
static uint8_t book[DULLAVANE_BOOK_SIZE(UNITS, REQUIREMENTS)];

/* What the calls that take a book and answer are lent. */
static uint32_t tally[DULLAVANE_TALLY_WORDS];
static int32_t measures[DULLAVANE_MEASURES];
static int64_t sums[DULLAVANE_SUMS], figures[DULLAVANE_FIGURES], rows[DULLAVANE_ROW * UNITS], deviations[POINTS];
static uint16_t numbers[UNITS], groups[UNITS];
static uint8_t homes[UNITS];
static int64_t performances[UNITS + 1], factors[UNITS + 1], payments[UNITS + 1], used[UNITS + 1], unused[UNITS + 1];

#define LENT(list) list, sizeof(list) / sizeof(list[0])

/* The bit for point t, from 0, is bit t mod 8 of byte t div 8. */
static void all_good(uint8_t *quality) {
    for (int t = 0; t < POINTS; t++) quality[t / 8] |= (uint8_t)(1 << t % 8);
}

static void make_region(int region, uint32_t frequency, int64_t generation, int64_t raise_unused) {
    int64_t *row = region_rows + DULLAVANE_REGION_ROW * region;
    row[DULLAVANE_REGION_GENERATION] = generation;
    row[DULLAVANE_REGION_DEFAULTS + RAISE_UNUSED] = raise_unused;
    all_good(region_qualities + QUALITY * region);
    for (int t = 0; t < POINTS; t++) frequencies[POINTS * region + t] = frequency;
}

static void make_unit(int unit, int64_t number, int64_t kind, int64_t power, int32_t reading) {
    int64_t *row = unit_rows + DULLAVANE_UNIT_ROW * unit;
    row[DULLAVANE_UNIT_NUMBER] = number;
    row[DULLAVANE_UNIT_KIND] = kind;
    row[DULLAVANE_UNIT_START] = power;
    row[DULLAVANE_UNIT_END] = power;
    row[DULLAVANE_UNIT_DEFAULTS + RAISE_UNUSED] = -1000;
    all_good(unit_qualities + QUALITY * unit);
    for (int t = 0; t < POINTS; t++) readings[POINTS * unit + t] = reading;
}

static uint64_t write_book(void) {
    make_region(0, 49980000, 100000, -1000);
    for (int r = 1; r < REGIONS; r++) make_region(r, 50000000, 0, 0);
    make_unit(0, 1, 0, 10000, 10100);
    make_unit(1, 2, 1, 5000, 5030);
    requirement_rows[DULLAVANE_REQUIREMENT_NUMBER] = 1;
    requirement_rows[DULLAVANE_REQUIREMENT_SET] = 1;
    requirement_rows[DULLAVANE_REQUIREMENT_PRICE] = 1200;
    requirement_rows[DULLAVANE_REQUIREMENT_COST] = 1000;
    requirement_rows[DULLAVANE_REQUIREMENT_ENABLED] = 1000;
    requirement_rows[DULLAVANE_REQUIREMENT_USED] = 333;
    /* smoothing, bad-frequency limit, bad-unit percent, interval */
    return dullavane_write(10000, 10, 20, 7, LENT(region_rows), LENT(region_qualities), LENT(frequencies), UNITS, LENT(unit_rows), LENT(unit_qualities),
                           LENT(readings), REQUIREMENTS, LENT(requirement_rows), LENT(book));
}

/* The record of the only requirement, which is the last of the book. */
static const uint8_t *const requirement = book + DULLAVANE_BOOK_SIZE(UNITS, 0);

/* The units go in one run. */
static uint64_t take_book(void) {
    const uint8_t *at = book;
    uint64_t no = dullavane_contents(at, DULLAVANE_CONTENTS_SIZE, LENT(tally));
    at += DULLAVANE_CONTENTS_SIZE;
    if (!no) no = dullavane_settings(LENT(tally), at, DULLAVANE_SETTINGS_SIZE);
    at += DULLAVANE_SETTINGS_SIZE;
    for (int r = 0; !no && r < REGIONS; r++, at += DULLAVANE_FREQUENCY_SIZE) {
        no = dullavane_frequency(LENT(tally), at, DULLAVANE_FREQUENCY_SIZE, LENT(measures), LENT(sums), LENT(figures));
    }
    if (no) return no;
    no = dullavane_units(LENT(tally), at, UNITS * DULLAVANE_UNIT_SIZE, LENT(measures), LENT(sums), LENT(figures), LENT(numbers), LENT(homes), LENT(rows),
                         LENT(groups), LENT(deviations));
    return no ? no : dullavane_requirement(LENT(tally), requirement, DULLAVANE_REQUIREMENT_SIZE);
}

static void put_member(uint64_t standing, uint64_t i) {
    printf(" %s %lld %lld %lld %lld %lld\n", standing ? "default" : "live", (long long)performances[i], (long long)factors[i], (long long)payments[i],
           (long long)used[i], (long long)unused[i]);
}

static uint64_t put_answer(void) {
    uint64_t reply[DULLAVANE_REPLY_WORDS], at = 0;
    uint32_t no = dullavane_answer(LENT(tally), requirement, DULLAVANE_REQUIREMENT_SIZE, LENT(measures), LENT(sums), LENT(figures), LENT(homes), LENT(rows),
                                   LENT(performances), LENT(factors), LENT(payments), LENT(used), LENT(unused), LENT(reply));
    if (no) return no;
    printf("interval %u\nrequirement %d %s", (unsigned)tally[7], requirement[0] + 256 * requirement[1], requirement[3] ? "lower" : "raise");
    for (int i = DULLAVANE_RCR; i <= DULLAVANE_UNPLACED_UNUSED; i++) printf(" %llu", (unsigned long long)reply[i]);
    putchar('\n');
    for (uint32_t row = 0; row < UNITS; row++) {
        uint32_t member[DULLAVANE_MEMBER_WORDS];
        no = dullavane_member(LENT(tally), row, requirement[3], requirement[2], LENT(figures), LENT(numbers), LENT(homes), LENT(member));
        if (no) return no;
        if (!member[DULLAVANE_IS_MEMBER]) continue;
        printf("unit %u", (unsigned)member[DULLAVANE_NUMBER]);
        put_member(member[DULLAVANE_STANDING], at++);
    }
    printf("residual");
    put_member(reply[DULLAVANE_RESIDUAL], at);
    return 0;
}

int main(int arguments, char **words) {
    uint64_t reply = write_book();
    (void)words;
    if (!DULLAVANE_REFUSAL(reply) && arguments > 1) {
        for (uint32_t i = 0; i < DULLAVANE_LENGTH(reply); i++) putchar(book[i]);
        return 0;
    }
    uint64_t no = DULLAVANE_REFUSAL(reply) ? reply : take_book();
    if (!no) no = put_answer();
    if (no) printf("refused %u %u %u\n", (unsigned)DULLAVANE_REFUSAL(no), (unsigned)DULLAVANE_PLACE(no), (unsigned)DULLAVANE_T(no));
    return 0;
}
