/* Holds the headers to the libraries: the phrase of every number to the one that the display draws, each constant to what a call takes at it and refuses one
   beside it, the names of words to what stands there after a book of known fields. Prints what does not hold, and at the end how many checks did. The C
   library's function is declared here, so that the kit's own compiler builds this with no header. */
#include "dullavane.h"
#include "dullavane_listing.h"
#include "dullavane_panel.h"
#include "dullavane_share.h"

int printf(const char *form, ...);

#define LENT(list) list, sizeof(list) / sizeof(list[0])

static unsigned passed, failed;

static void hold(int holds, const char *what, uint64_t at) {
    if (holds) {
        passed++;
        return;
    }
    failed++;
    printf("does not hold: %s (%llu)\n", what, (unsigned long long)at);
}

static void is(uint64_t reply, uint32_t refusal, const char *what) { hold(DULLAVANE_REFUSAL(reply) == refusal, what, DULLAVANE_REFUSAL(reply)); }

/* ---- phrases */

/* The phrase at the left of the first line, and spaces after it to the page's end. */
static int is_drawn(const char *phrase, const uint8_t *text) {
    int i = 0;
    for (; phrase[i]; i++)
        if (i == DULLAVANE_PANEL_PLACES || text[i] != (uint8_t)phrase[i]) return 0;
    for (; i < DULLAVANE_PANEL_BYTES; i++)
        if (text[i] != ' ') return 0;
    return 1;
}

static void hold_phrase(uint32_t number) {
    uint8_t text[DULLAVANE_PANEL_BYTES];
    is(dullavane_panel_phrase(number, LENT(text)), DULLAVANE_NOT_REFUSED, "a phrase is drawn");
    hold(is_drawn(dullavane_phrase(number), text), "the phrase of a number", number);
}

static void hold_phrases(void) {
    for (uint32_t n = 0; n <= 600; n++) hold_phrase(n);
    for (uint32_t n = 0; n <= 100; n++) hold_phrase(65536 + n);
    for (uint32_t bit = 10; bit < 32; bit++) hold_phrase((uint32_t)1 << bit | bit);
    hold_phrase(UINT32_MAX);
}

/* ---- a book of four units and two requirements: region 0 is reliable for raise and has a good unit and a bad one, region 1 a bad one alone, region 2 is
   separated and has a good one */

enum { UNITS = 4, REQUIREMENTS = 2, QUALITY = DULLAVANE_QUALITY_BYTES, POINTS = DULLAVANE_POINTS };

static int64_t region_rows[DULLAVANE_REGIONS * DULLAVANE_REGION_ROW], unit_rows[UNITS * DULLAVANE_UNIT_ROW];
static int64_t requirement_rows[REQUIREMENTS * DULLAVANE_REQUIREMENT_ROW];
static uint8_t region_qualities[DULLAVANE_REGIONS * QUALITY], unit_qualities[UNITS * QUALITY];
static uint32_t frequencies[DULLAVANE_REGIONS * POINTS];
static int32_t readings[UNITS * POINTS];
static uint8_t book[DULLAVANE_BOOK_SIZE(UNITS, REQUIREMENTS)];

static uint32_t tally[DULLAVANE_TALLY_WORDS];
static int32_t measures[DULLAVANE_MEASURES];
static int64_t sums[DULLAVANE_SUMS], figures[DULLAVANE_FIGURES], rows[DULLAVANE_ROWS], deviations[DULLAVANE_DEVIATIONS];
static uint16_t numbers[DULLAVANE_NUMBERS], groups[DULLAVANE_GROUPS];
static uint8_t homes[DULLAVANE_HOMES];
static int64_t performances[DULLAVANE_COLUMN], factors[DULLAVANE_COLUMN], payments[DULLAVANE_COLUMN], used[DULLAVANE_COLUMN], unused[DULLAVANE_COLUMN];
static uint64_t reply[DULLAVANE_REPLY_WORDS];

static void set_good(uint8_t *quality) {
    for (int t = 0; t < POINTS; t++) quality[t / 8] |= (uint8_t)(1 << t % 8);
}

static void set_unit(int unit, int64_t number, int64_t region, int is_bad) {
    int64_t *row = unit_rows + DULLAVANE_UNIT_ROW * unit;
    row[DULLAVANE_UNIT_NUMBER] = number;
    row[DULLAVANE_UNIT_REGION] = region;
    row[DULLAVANE_UNIT_START] = row[DULLAVANE_UNIT_END] = 1000;
    set_good(unit_qualities + QUALITY * unit);
    for (int t = 0; t < POINTS; t++) readings[POINTS * unit + t] = 1100;
    if (!is_bad) return;
    unit_qualities[QUALITY * unit] ^= 1;
    readings[POINTS * unit] = 0;
}

static void set_requirement(int place, int64_t number, int64_t set) {
    int64_t *row = requirement_rows + DULLAVANE_REQUIREMENT_ROW * place;
    row[DULLAVANE_REQUIREMENT_NUMBER] = number;
    row[DULLAVANE_REQUIREMENT_SET] = set;
    row[DULLAVANE_REQUIREMENT_PRICE] = 1200;
    row[DULLAVANE_REQUIREMENT_COST] = 1000;
    row[DULLAVANE_REQUIREMENT_ENABLED] = 1000;
    row[DULLAVANE_REQUIREMENT_USED] = 333;
}

static uint64_t written(uint64_t room, uint32_t units, uint32_t requirements, int64_t interval) {
    return dullavane_write(9000, 11, 100, interval, LENT(region_rows), LENT(region_qualities), LENT(frequencies), units, LENT(unit_rows), LENT(unit_qualities),
                           LENT(readings), requirements, LENT(requirement_rows), book, room);
}

static void write_book(void) {
    for (int r = 0; r < DULLAVANE_REGIONS; r++) {
        region_rows[DULLAVANE_REGION_ROW * r + DULLAVANE_REGION_GENERATION] = 1000;
        set_good(region_qualities + QUALITY * r);
        for (int t = 0; t < POINTS; t++) frequencies[POINTS * r + t] = 49980000;
    }
    region_rows[DULLAVANE_REGION_ROW * 2 + DULLAVANE_REGION_SEPARATION] = 1;
    set_unit(0, 5, 0, 0);
    set_unit(1, 9, 0, 1);
    set_unit(2, 11, 1, 1);
    set_unit(3, 13, 2, 0);
    set_requirement(0, 3, 1);
    set_requirement(1, 8, 2);
    is(written(sizeof book - 1, UNITS, REQUIREMENTS, 77), DULLAVANE_TOO_SHORT, "a book of a byte less than its size has no room");
    uint64_t told = written(sizeof book, UNITS, REQUIREMENTS, 77);
    hold(DULLAVANE_REFUSAL(told) == 0 && DULLAVANE_LENGTH(told) == sizeof book, "a book of its size is written", told);
}

/* ---- each call at its sizes, and one beside them */

static uint64_t take_contents(uint64_t bytes, uint64_t words) { return dullavane_contents(book, bytes, tally, words); }

/* The contents of a book of so many units and requirements, whatever else it has. */
static uint64_t announce(uint32_t units, uint32_t requirements) {
    static const uint16_t sizes[4] = {DULLAVANE_SETTINGS_SIZE, DULLAVANE_FREQUENCY_SIZE, DULLAVANE_UNIT_SIZE, DULLAVANE_REQUIREMENT_SIZE};
    uint32_t items[4] = {1, DULLAVANE_REGIONS, units, requirements}, offset = DULLAVANE_CONTENTS_SIZE, words[DULLAVANE_TALLY_WORDS];
    uint8_t table[DULLAVANE_CONTENTS_SIZE] = {0x46, 0x43, 0x46, 0x31, 4};
    for (int k = 0; k < 4; k++) {
        uint8_t *entry = table + 8 + 12 * k;
        uint32_t length = items[k] * sizes[k];
        entry[0] = (uint8_t)(k + 1);
        entry[2] = (uint8_t)items[k], entry[3] = (uint8_t)(items[k] >> 8);
        for (int i = 0; i < 4; i++) entry[4 + i] = (uint8_t)(offset >> 8 * i), entry[8 + i] = (uint8_t)(length >> 8 * i);
        offset += length;
    }
    return dullavane_contents(LENT(table), LENT(words));
}

static uint64_t take_frequency(const uint8_t *at, uint64_t bytes, uint64_t m, uint64_t s, uint64_t f) {
    return dullavane_frequency(LENT(tally), at, bytes, measures, m, sums, s, figures, f);
}

static uint64_t take_unit(const uint8_t *at, uint64_t bytes, uint64_t n, uint64_t h, uint64_t r, uint64_t g, uint64_t d) {
    return dullavane_unit(LENT(tally), at, bytes, LENT(measures), LENT(sums), LENT(figures), numbers, n, homes, h, rows, r, groups, g, deviations, d);
}

static void hold_contents(void) {
    is(announce(DULLAVANE_MOST_UNITS, DULLAVANE_MOST_REQUIREMENTS), 0, "the most units and requirements are announced");
    is(announce(DULLAVANE_MOST_UNITS + 1, 1), DULLAVANE_WRONG_COUNT, "a unit more");
    is(announce(0, DULLAVANE_MOST_REQUIREMENTS + 1), DULLAVANE_WRONG_COUNT, "a requirement more");
    is(take_contents(DULLAVANE_CONTENTS_SIZE, DULLAVANE_TALLY_WORDS - 1), DULLAVANE_TOO_SHORT, "a tally of a word less");
    is(take_contents(DULLAVANE_CONTENTS_SIZE - 1, DULLAVANE_TALLY_WORDS), DULLAVANE_ENDS_EARLY, "contents of a byte less");
    is(take_contents(DULLAVANE_CONTENTS_SIZE, DULLAVANE_TALLY_WORDS), 0, "the contents");
    hold(tally[DULLAVANE_TALLY_UNITS] == UNITS && tally[DULLAVANE_TALLY_REQUIREMENTS] == REQUIREMENTS, "units and requirements announced", tally[0]);
    for (int i = DULLAVANE_TALLY_RECORDS; i < DULLAVANE_TALLY_WORDS; i++) hold(tally[i] == 0, "a word of the tally is 0 before the settings", (uint64_t)i);
}

static const uint8_t *hold_settings(const uint8_t *at) {
    is(dullavane_settings(LENT(tally), at, DULLAVANE_SETTINGS_SIZE - 1), DULLAVANE_ENDS_EARLY, "settings of a byte less");
    is(dullavane_settings(LENT(tally), at, DULLAVANE_SETTINGS_SIZE), 0, "the settings");
    hold(tally[DULLAVANE_TALLY_SMOOTHING] == 9000, "smoothing", tally[DULLAVANE_TALLY_SMOOTHING]);
    hold(tally[DULLAVANE_TALLY_LIMIT] == 11, "bad-frequency limit", tally[DULLAVANE_TALLY_LIMIT]);
    hold(tally[DULLAVANE_TALLY_PERCENT] == 100, "bad-unit percent", tally[DULLAVANE_TALLY_PERCENT]);
    hold(tally[DULLAVANE_TALLY_INTERVAL] == 77, "interval number", tally[DULLAVANE_TALLY_INTERVAL]);
    return at + DULLAVANE_SETTINGS_SIZE;
}

static const uint8_t *hold_frequencies(const uint8_t *at) {
    enum { SIZE = DULLAVANE_FREQUENCY_SIZE, M = DULLAVANE_MEASURES, S = DULLAVANE_SUMS, F = DULLAVANE_FIGURES };
    is(take_frequency(at, SIZE, M - 1, S, F), DULLAVANE_TOO_SHORT, "a measure less");
    is(take_frequency(at, SIZE, M, S - 1, F), DULLAVANE_TOO_SHORT, "a sum less");
    is(take_frequency(at, SIZE, M, S, F - 1), DULLAVANE_TOO_SHORT, "a figure less");
    is(take_frequency(at, SIZE - 1, M, S, F), DULLAVANE_ENDS_EARLY, "a frequency record of a byte less");
    for (int r = 0; r < DULLAVANE_REGIONS; r++, at += SIZE) is(take_frequency(at, SIZE, M, S, F), 0, "a frequency record");
    hold(tally[DULLAVANE_TALLY_RECORDS] == DULLAVANE_BEFORE_UNITS, "records before the units", tally[DULLAVANE_TALLY_RECORDS]);
    return at;
}

/* The lists as long as so many units need. */
static const uint8_t *hold_units(const uint8_t *at) {
    enum { SIZE = DULLAVANE_UNIT_SIZE, ROW = DULLAVANE_ROW, D = DULLAVANE_DEVIATIONS };
    for (uint64_t k = 1; k <= UNITS; k++, at += SIZE) {
        is(take_unit(at, SIZE, k - 1, k, ROW * k, k, D), DULLAVANE_TOO_SHORT, "a number less");
        is(take_unit(at, SIZE, k, k - 1, ROW * k, k, D), DULLAVANE_TOO_SHORT, "a home less");
        is(take_unit(at, SIZE, k, k, ROW * k - 1, k, D), DULLAVANE_TOO_SHORT, "a row of a number less");
        is(take_unit(at, SIZE, k, k, ROW * k, k - 1, D), DULLAVANE_TOO_SHORT, "a group less");
        is(take_unit(at, SIZE, k, k, ROW * k, k, D - 1), DULLAVANE_TOO_SHORT, "a deviation less");
        is(take_unit(at, SIZE - 1, k, k, ROW * k, k, D), DULLAVANE_ENDS_EARLY, "a unit of a byte less");
        is(take_unit(at, SIZE, k, k, ROW * k, k, D), 0, "a unit");
        hold(tally[DULLAVANE_TALLY_LEAST] == (k < UNITS ? (uint32_t)numbers[k - 1] + 1 : 0), "the least number that the next may have", k);
    }
    hold(tally[DULLAVANE_TALLY_RECORDS] == DULLAVANE_UNITS_END(tally), "the units' end", tally[DULLAVANE_TALLY_RECORDS]);
    hold(DULLAVANE_IS_GOOD(homes[0]) && !DULLAVANE_IS_GOOD(homes[1]), "a home says who is good", homes[1]);
    for (int k = 0; k < UNITS; k++) hold(!DULLAVANE_IS_PASSED_OVER(homes[k]), "no home is passed over", homes[k]);
    for (int k = 0; k < UNITS; k++)
        hold(DULLAVANE_HOME_REGION(homes[k]) == unit_rows[DULLAVANE_UNIT_ROW * k + DULLAVANE_UNIT_REGION], "a home says its region", homes[k]);
    return at;
}

static void hold_requirements(const uint8_t *at) {
    enum { SIZE = DULLAVANE_REQUIREMENT_SIZE };
    is(dullavane_requirement(LENT(tally), at, SIZE - 1), DULLAVANE_ENDS_EARLY, "a requirement of a byte less");
    is(dullavane_requirement(LENT(tally), at, SIZE), 0, "a requirement");
    hold(tally[DULLAVANE_TALLY_RECORDS] + 1 == DULLAVANE_BOOK_END(tally), "the book has not ended", tally[DULLAVANE_TALLY_RECORDS]);
    is(dullavane_requirement(LENT(tally), at + SIZE, SIZE), 0, "the last requirement");
    hold(tally[DULLAVANE_TALLY_RECORDS] == DULLAVANE_BOOK_END(tally), "the book's end", tally[DULLAVANE_TALLY_RECORDS]);
}

/* ---- answers, members, standings */

static uint32_t answer(const uint8_t *part, uint64_t column, uint64_t words) {
    return dullavane_answer(LENT(tally), part, DULLAVANE_REQUIREMENT_SIZE, LENT(measures), LENT(sums), LENT(figures), LENT(homes), LENT(rows),
                            performances, column, factors, column, payments, column, used, column, unused, column, reply, words);
}

static uint32_t standing(uint32_t row, uint32_t set, uint32_t number) {
    uint32_t member[DULLAVANE_MEMBER_WORDS];
    is(dullavane_member(LENT(tally), row, 0, set, LENT(figures), LENT(numbers), LENT(homes), member, DULLAVANE_MEMBER_WORDS - 1), DULLAVANE_TOO_SHORT,
       "a member of a word less");
    is(dullavane_member(LENT(tally), row, 0, set, LENT(figures), LENT(numbers), LENT(homes), LENT(member)), 0, "a member");
    hold(member[DULLAVANE_IS_MEMBER] == 1 && member[DULLAVANE_NUMBER] == number, "a member's number", member[DULLAVANE_NUMBER]);
    return member[DULLAVANE_STANDING];
}

static void hold_answers(const uint8_t *first) {
    const uint8_t *second = first + DULLAVANE_REQUIREMENT_SIZE;
    is(answer(first, UNITS, DULLAVANE_REPLY_WORDS), DULLAVANE_TOO_SHORT, "columns of a number less");
    is(answer(first, UNITS + 1, DULLAVANE_REPLY_WORDS - 1), DULLAVANE_TOO_SHORT, "a reply of a word less");
    is(answer(first, UNITS + 1, DULLAVANE_REPLY_WORDS), 0, "an answer");
    hold(reply[DULLAVANE_MEMBERS] == 3, "two units and a residual", reply[DULLAVANE_MEMBERS]);
    hold(reply[DULLAVANE_RCR] == 7500 && DULLAVANE_RCR_MW(reply[DULLAVANE_RCR]) == 1, "RCR of one MW", reply[DULLAVANE_RCR]);
    hold(reply[DULLAVANE_POOL] == 100, "the pool", reply[DULLAVANE_POOL]);
    hold(reply[DULLAVANE_USED_POOL] == 333 && reply[DULLAVANE_UNUSED_POOL] == 667, "the cost's two pools", reply[DULLAVANE_USED_POOL]);
    hold(reply[DULLAVANE_UNPLACED_USED] == 0 && reply[DULLAVANE_UNPLACED_UNUSED] == 667, "what nobody is charged", reply[DULLAVANE_UNPLACED_UNUSED]);
    hold(reply[DULLAVANE_RESIDUAL] == DULLAVANE_LIVE, "the residual is live", reply[DULLAVANE_RESIDUAL]);
    is(answer(second, UNITS + 1, DULLAVANE_REPLY_WORDS), 0, "the second answer");
    hold(reply[DULLAVANE_RESIDUAL] == DULLAVANE_NO_GOOD_UNIT, "the residual of a region without a good unit", reply[DULLAVANE_RESIDUAL]);
    hold(standing(0, 1, 5) == DULLAVANE_LIVE, "a good unit is live", 0);
    hold(standing(1, 1, 9) == DULLAVANE_BAD_UNIT, "a bad unit", 0);
    hold(standing(3, 4, 13) == DULLAVANE_UNRELIABLE_REGION, "a unit of a separated region", 0);
    hold(DULLAVANE_RCR_MW(18749) == 2 && DULLAVANE_RCR_REST(18749) == 4998, "RCR in MW and ten-thousandths", DULLAVANE_RCR_REST(18749));
}

/* ---- the other lengths and limits */

static uint32_t list(uint64_t *cursor, uint64_t words, const uint8_t *requirements, uint8_t *text, uint64_t bytes) {
    return dullavane_listing(cursor, words, LENT(tally), requirements, REQUIREMENTS * DULLAVANE_REQUIREMENT_SIZE, LENT(measures), LENT(sums), LENT(figures),
                             LENT(numbers), LENT(homes), LENT(rows), LENT(performances), LENT(factors), LENT(payments), LENT(used), LENT(unused), text, bytes);
}

static void hold_listing(const uint8_t *requirements) {
    uint64_t cursor[DULLAVANE_CURSOR_WORDS] = {0};
    uint8_t text[DULLAVANE_LINE_MOST];
    is(list(cursor, DULLAVANE_CURSOR_WORDS - 1, requirements, LENT(text)), DULLAVANE_TOO_SHORT, "a cursor of a word less");
    cursor[DULLAVANE_STAGE] = DULLAVANE_STAGE_REQUIREMENT;
    is(list(LENT(cursor), requirements, text, DULLAVANE_LINE_MOST - 1), DULLAVANE_TOO_SHORT, "a text of a byte less than the longest line");
    cursor[DULLAVANE_STAGE] = DULLAVANE_STAGE_INTERVAL;
    is(list(LENT(cursor), requirements, LENT(text)), 0, "a piece");
    hold(cursor[DULLAVANE_WRITTEN] > 12 && text[0] == 'i' && text[9] == '7' && text[11] == '\n', "the interval's line", cursor[DULLAVANE_WRITTEN]);
    hold(cursor[DULLAVANE_STAGE] == DULLAVANE_STAGE_MEMBERS && cursor[DULLAVANE_CURSOR_NUMBER] == 3, "the requirement's members", cursor[DULLAVANE_STAGE]);
    hold(cursor[DULLAVANE_CURSOR_ANSWER + DULLAVANE_RCR] == 7500 && cursor[DULLAVANE_CURSOR_SET] == 1, "the cursor's answer", cursor[DULLAVANE_CURSOR_SET]);
}

static uint32_t press(const uint8_t *requirement, uint64_t words, uint64_t bytes, uint8_t *text, uint32_t *page, uint32_t key) {
    return dullavane_panel_press(page, words, key, 1, LENT(tally), requirement, DULLAVANE_REQUIREMENT_SIZE, LENT(figures), LENT(numbers), LENT(homes),
                                 LENT(payments), LENT(used), LENT(unused), LENT(reply), text, bytes);
}

static void hold_panel(const uint8_t *requirement) {
    uint32_t page[DULLAVANE_PAGE_WORDS] = {0};
    uint8_t text[DULLAVANE_PANEL_BYTES];
    is(answer(requirement, UNITS + 1, DULLAVANE_REPLY_WORDS), 0, "an answer for the display");
    is(press(requirement, DULLAVANE_PAGE_WORDS - 1, sizeof text, text, page, 0), DULLAVANE_TOO_SHORT, "a page of a word less");
    is(press(requirement, DULLAVANE_PAGE_WORDS, sizeof text - 1, text, page, 0), DULLAVANE_TOO_SHORT, "a page of a byte less");
    is(press(requirement, DULLAVANE_PAGE_WORDS, sizeof text, text, page, DULLAVANE_KEY_HOME + 1), DULLAVANE_WRONG_STATE, "a key that there is not");
    is(press(requirement, DULLAVANE_PAGE_WORDS, sizeof text, text, page, DULLAVANE_KEY_NEXT), 0, "a key press");
    hold(page[DULLAVANE_PAGE_BOOK] == 1 && page[DULLAVANE_PAGE_REQUIREMENT] == 3 && page[DULLAVANE_PAGE_NUMBER] == 1, "the page record", page[2]);
    hold(text[0] == 'u' && text[5] == '5' && text[DULLAVANE_PANEL_PLACES] == 'P', "the first member's page", text[0]);
    is(press(requirement, DULLAVANE_PAGE_WORDS, sizeof text, text, page, DULLAVANE_KEY_PREVIOUS), 0, "the previous page");
    hold(page[DULLAVANE_PAGE_NUMBER] == 0 && text[0] == 'r', "the first page", page[2]);
}

static void hold_weeks(void) {
    static int64_t live_performances[DULLAVANE_MOST_INTERVALS + 1];
    static uint8_t live[DULLAVANE_MOST_INTERVALS / 8 + 1];
    int64_t told[DULLAVANE_DEFAULT_NUMBERS];
    uint64_t week[DULLAVANE_WEEK_WORDS] = {0};
    is(dullavane_week(DULLAVANE_UNIT, live_performances, DULLAVANE_MOST_INTERVALS, LENT(live), LENT(told)), 0, "a week of the most intervals");
    is(dullavane_week(DULLAVANE_UNIT, live_performances, DULLAVANE_MOST_INTERVALS + 1, LENT(live), LENT(told)), DULLAVANE_WRONG_WEEK, "an interval more");
    is(dullavane_week(DULLAVANE_UNIT, live_performances, 5, LENT(live), told, DULLAVANE_DEFAULT_NUMBERS - 1), DULLAVANE_TOO_SHORT, "an answer too short");
    is(dullavane_week(DULLAVANE_MOST_UNITS + 1, live_performances, 5, LENT(live), LENT(told)), DULLAVANE_WRONG_COUNT, "a group of a unit more");
    is(dullavane_week_add(DULLAVANE_A_RESIDUAL, 1, -7, week, DULLAVANE_WEEK_WORDS - 1), DULLAVANE_TOO_SHORT, "a running week of a word less");
    is(dullavane_week_add(DULLAVANE_A_RESIDUAL, 1, -50000000000000001, LENT(week)), 0, "an interval added");
    is(dullavane_week_read(DULLAVANE_A_RESIDUAL, LENT(week), LENT(told)), DULLAVANE_AVERAGE_TOO_LOW, "an average below the default's limit");
    is(dullavane_week_add(DULLAVANE_A_RESIDUAL, 1, 0, LENT(week)), 0, "another interval added");
    is(dullavane_week_read(DULLAVANE_A_RESIDUAL, LENT(week), LENT(told)), 0, "a week is read");
    hold(told[DULLAVANE_COUNT] == 2 && told[DULLAVANE_DEFAULT] == -25000000000000001, "count and default", (uint64_t)told[DULLAVANE_COUNT]);
}

static void hold_sheets(void) {
    static int64_t none[DULLAVANE_MOST_MEMBERS + 1];
    uint64_t verdict[DULLAVANE_VERDICT_WORDS];
    static const int64_t performance[2] = {3, -3}, wrong[2] = {1000000000, 1}, positive[2] = {0, -1000000000}, negative[2] = {1000000000, 0};
    is(dullavane_sheet(none, DULLAVANE_MOST_MEMBERS, none, DULLAVANE_MOST_MEMBERS, LENT(verdict)), 0, "a sheet of the most members");
    hold(verdict[0] == DULLAVANE_POSSIBLE, "a sheet that is possible", verdict[0]);
    is(dullavane_sheet(LENT(none), LENT(none), LENT(verdict)), DULLAVANE_WRONG_COUNT, "a member more");
    is(dullavane_sheet(none, 5, none, 5, verdict, DULLAVANE_VERDICT_WORDS - 1), DULLAVANE_TOO_SHORT, "a verdict of a word less");
    is(dullavane_sheet(LENT(performance), LENT(wrong), LENT(verdict)), 0, "a sheet");
    hold(verdict[0] == DULLAVANE_WRONG_MEMBER && verdict[1] == 2, "a wrong member", verdict[0]);
    is(dullavane_sheet(LENT(performance), LENT(positive), LENT(verdict)), 0, "a sheet");
    hold(verdict[0] == DULLAVANE_WRONG_MEMBER && verdict[1] == 1, "a factor a billion off", verdict[0]);
    is(dullavane_sheet(LENT(performance), LENT(negative), LENT(verdict)), 0, "a sheet");
    hold(verdict[0] == DULLAVANE_WRONG_MEMBER && verdict[1] == 2, "the other one", verdict[0]);
}

/* A side whose sum is off though no member is wrong: three equal members with one billionth too few, or too many. */
static void hold_sides(void) {
    static const int64_t up[3] = {1, 1, 1}, down[3] = {-1, -1, -1}, few[3] = {333333333, 333333333, 333333333}, minus[3] = {-333333334, -333333334, -333333333};
    uint64_t verdict[DULLAVANE_VERDICT_WORDS];
    is(dullavane_sheet(LENT(up), LENT(few), LENT(verdict)), 0, "a sheet");
    hold(verdict[0] == DULLAVANE_WRONG_POSITIVE, "the positive side's sum", verdict[0]);
    is(dullavane_sheet(LENT(down), LENT(minus), LENT(verdict)), 0, "a sheet");
    hold(verdict[0] == DULLAVANE_WRONG_NEGATIVE, "the negative side's sum", verdict[0]);
}

static void hold_strips(const uint8_t *unit) {
    float points[DULLAVANE_STRIP_POINTS], strip[DULLAVANE_STRIP_NUMBERS];
    uint32_t drawn[DULLAVANE_DRAWN_NUMBERS];
    is(dullavane_trend(unit, DULLAVANE_UNIT_SIZE, points, DULLAVANE_STRIP_POINTS - 1, LENT(strip), LENT(drawn)), DULLAVANE_TOO_SHORT, "a point less");
    is(dullavane_trend(unit, DULLAVANE_UNIT_SIZE, LENT(points), strip, DULLAVANE_STRIP_NUMBERS - 1, LENT(drawn)), DULLAVANE_TOO_SHORT, "a strip too short");
    is(dullavane_trend(unit, DULLAVANE_UNIT_SIZE, LENT(points), LENT(strip), drawn, DULLAVANE_DRAWN_NUMBERS - 1), DULLAVANE_TOO_SHORT, "no count");
    is(dullavane_trend(unit, DULLAVANE_UNIT_SIZE, LENT(points), LENT(strip), LENT(drawn)), 0, "a strip");
    hold(drawn[0] == 75 && strip[DULLAVANE_LOWEST] == 1 && strip[DULLAVANE_HIGHEST] == 1 && strip[DULLAVANE_LAST] == 1, "a strip of one MW", drawn[0]);
}

static void hold_reports(void) {
    uint8_t text[DULLAVANE_REPORT_BYTES];
    int64_t read[DULLAVANE_REPORT_NUMBERS];
    uint64_t told = dullavane_report_row(DULLAVANE_LAST_INTERVAL, 1, 4, INT64_MIN, DULLAVANE_TYPE_CALCULATED, INT64_MIN, DULLAVANE_TYPE_CALCULATED, 65535,
                                         LENT(text));
    hold(DULLAVANE_REFUSAL(told) == 0 && DULLAVANE_LENGTH(told) == DULLAVANE_REPORT_BYTES, "the longest row", DULLAVANE_LENGTH(told));
    is(dullavane_report_row(DULLAVANE_LAST_INTERVAL + 1, 1, 4, 0, 0, 0, 0, 1, LENT(text)), DULLAVANE_YEAR_PAST, "an interval past the last");
    told = dullavane_report(LENT(tally), 1, 6, LENT(figures), LENT(numbers), LENT(homes), LENT(rows), LENT(text));
    hold(DULLAVANE_REFUSAL(told) == 0, "a row of the book", told);
    is(dullavane_report_read(text, DULLAVANE_LENGTH(told), read, DULLAVANE_REPORT_NUMBERS - 1), DULLAVANE_TOO_SHORT, "a row read into a number less");
    is(dullavane_report_read(text, DULLAVANE_LENGTH(told), LENT(read)), 0, "a row read");
    hold(read[DULLAVANE_REPORT_INTERVAL] == 77 && read[DULLAVANE_REPORT_RESIDUAL] == 0 && read[DULLAVANE_REPORT_NUMBER] == 9, "whose row it is", 0);
    hold(read[DULLAVANE_REPORT_RAISE_TYPE] == DULLAVANE_TYPE_DEFAULT && read[DULLAVANE_REPORT_RAISE] == 0, "a bad unit's default", 0);
    hold(read[DULLAVANE_REPORT_LOWER_TYPE] == DULLAVANE_TYPE_DEFAULT && read[DULLAVANE_REPORT_LOWER] == 0 && read[DULLAVANE_REPORT_VERSION] == 6, "its end", 0);
}

static void hold_shares(void) {
    uint64_t weights[3] = {1, 3, 0}, unplaced = 9;
    int64_t amounts[3];
    is(share_amounts(2, LENT(weights), amounts, 2, &unplaced), DULLAVANE_TOO_SHORT, "an amount less");
    is(share_amounts(2, LENT(weights), LENT(amounts), &unplaced), 0, "a share");
    hold(amounts[0] == 0 && amounts[1] == 2 && amounts[2] == 0 && unplaced == 0, "2 over 1, 3 and 0", (uint64_t)amounts[1]);
    is(share_amounts(DULLAVANE_SHARE_MOST_TOTAL + 1, LENT(weights), LENT(amounts), &unplaced), DULLAVANE_WRONG_COUNT, "a total over the most");
    weights[0] = DULLAVANE_SHARE_MOST_WEIGHT - 3;
    is(share_amounts(DULLAVANE_SHARE_MOST_TOTAL, LENT(weights), LENT(amounts), &unplaced), 0, "the most of both");
    weights[2] = 1;
    is(share_amounts(5, LENT(weights), LENT(amounts), &unplaced), DULLAVANE_WRONG_COUNT, "weights over the most");
    weights[0] = weights[1] = weights[2] = 0;
    is(share_amounts(5, LENT(weights), LENT(amounts), &unplaced), 0, "no weight");
    hold(unplaced == 5 && amounts[0] == 0, "what is unplaced", unplaced);
}

int main(void) {
    hold_phrases();
    write_book();
    hold_contents();
    const uint8_t *at = hold_settings(book + DULLAVANE_CONTENTS_SIZE), *units = hold_frequencies(at), *requirements = hold_units(units);
    hold_requirements(requirements);
    hold_answers(requirements);
    hold_panel(requirements);
    hold_listing(requirements);
    hold_weeks();
    hold_sheets();
    hold_sides();
    hold_strips(units);
    hold_reports();
    hold_shares();
    printf("%u passed, %u failed\n", passed, failed);
    return failed != 0;
}
