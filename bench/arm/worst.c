/* bench/arm/worst.c: every call of the C headers, on the emulated board, over inputs that cost much. What to try comes as lines:
     book BYTES NAME      an interval book, whose bytes follow the line
     made UNITS SEED      a book of so many units that is made here and written by dullavane_write: SEED picks groups, bad points, points and defaults
     answers UNITS SEED   the same with one good unit, no group and defaults against the share's cut, taken by one run and answered
     numbers SEED         weeks, shares, sheets, rows of the report and pages from numbers
     trap CALL            from here on an access to a word that is not aligned is a fault inside this call, or `all` of them (CCR.UNALIGN_TRP)
     unaligned            such an access, in this file
     copied               the same within the C library's memcpy, between addresses that are no multiples of 4
     aligned              from here on every byte that is lent stands at a multiple of 4
   A book is taken by single units and by one run, then answered, listed in pieces, reported, shown and drawn; calls that are refused at their last test are
   among them. Bytes that are lent stand at odd addresses. Prints `# INPUT` and then a line for each call, in their order: its name, what kind of call
   it is or -, and the bytes of stack that it took. Fails where a reply is not the one that such a call has. bench/arm/worst counts the instructions. */
#include "dullavane.h"
#include "dullavane_listing.h"
#include "dullavane_panel.h"
#include "dullavane_share.h"

int getchar(void);
int putchar(int c);
_Noreturn void exit(int status);
void *memcpy(void *to, const void *from, unsigned bytes);

enum { REGIONS = DULLAVANE_REGIONS, POINTS = DULLAVANE_POINTS, QUALITIES = DULLAVANE_QUALITY_BYTES, INTERVALS = DULLAVANE_MOST_INTERVALS };
enum { UNITS = DULLAVANE_MOST_UNITS, MEMBERS = DULLAVANE_MOST_MEMBERS, ASKED = DULLAVANE_MOST_REQUIREMENTS };
enum { RECORD = DULLAVANE_UNIT_SIZE, FREQUENCY = DULLAVANE_FREQUENCY_SIZE, REQUIREMENT = DULLAVANE_REQUIREMENT_SIZE, RECORDS = 1904 };
enum { ANY_REFUSAL = 1000, ANY_REPLY, ROW_MOST = DULLAVANE_REPORT_BYTES + 1, PIECE_MOST = 4096, LIVE_BYTES = (INTERVALS + 7) / 8, WEEKS = 13 };

#define LENT(list) list, sizeof(list) / sizeof(list[0])

static void put(const char *text) {
    for (; *text; text++) putchar(*text);
}

static void put_number(uint32_t x) {
    char digits[10];
    int n = 0;
    do digits[n++] = (char)('0' + x % 10);
    while (x /= 10);
    while (n) putchar(digits[--n]);
}

/* ---- a call, its stack and its reply ---- */

/* The stack is painted before a call, from the stack pointer of the function below down. After it the lowest word that has changed is looked for. The call is
   made by a function of its own, which lays the arguments: its frame, with them, is counted. */
enum { DEPTH = 6144, PAINT = 0x5a5a5a5a };

__attribute__((always_inline)) static inline uintptr_t stack_pointer(void) {
    uintptr_t here;
    __asm__ volatile("mov %0, sp" : "=r"(here));
    return here;
}

static char trapped[40];

static int same(const char *a, const char *b) {
    while (*a && *a == *b) a++, b++;
    return *a == *b;
}

/* Bit 3 of the configuration and control register. */
static void trap_unaligned(int on) {
    volatile uint32_t *control = (volatile uint32_t *)0xe000ed14;
    *control = on ? *control | 8u : *control & ~8u;
    __asm__ volatile("dsb\n\tisb" : : : "memory");
}

__attribute__((noinline)) static uint64_t made(const char *name, const char *kind, uint64_t (*call)(void), uint32_t refusal) {
    int trap = same(name, trapped) || same("all", trapped);
    uintptr_t top = stack_pointer();
    volatile uint32_t *at = (volatile uint32_t *)(top - DEPTH);
    while ((uintptr_t)at < top) *at++ = PAINT;
    if (trap) trap_unaligned(1);
    uint64_t reply = call();
    if (trap) trap_unaligned(0);
    at = (volatile uint32_t *)(top - DEPTH);
    while (*at == PAINT) at++;
    put(name);
    putchar(' ');
    put(kind);
    putchar(' ');
    put_number((uint32_t)(top - (uintptr_t)at));
    putchar('\n');
    uint32_t got = DULLAVANE_REFUSAL(reply);
    if (got == refusal || refusal == ANY_REPLY || (refusal == ANY_REFUSAL && got)) return reply;
    put("WRONG: refused with ");
    put_number(got);
    put(", not ");
    put_number(refusal);
    putchar('\n');
    exit(1);
}

static void check(int holds, const char *what) {
    if (holds) return;
    put("WRONG: ");
    put(what);
    putchar('\n');
    exit(1);
}

/* ---- what is lent ---- */

/* Bytes stand one past a multiple of 4, as long as nothing else is said. */
static uint8_t book_space[4 + DULLAVANE_BOOK_SIZE(UNITS, ASKED) + 4] __attribute__((aligned(4)));
static uint8_t record_space[4 + RECORD] __attribute__((aligned(4))), text_space[4 + PIECE_MOST] __attribute__((aligned(4)));
static uint8_t live_space[4 + WEEKS * LIVE_BYTES] __attribute__((aligned(4)));
static uint8_t *book = book_space + 1, *record = record_space + 1, *text = text_space + 1, *live = live_space + 1;

static void align_bytes(void) {
    book = book_space;
    record = record_space;
    text = text_space;
    live = live_space;
}

static uint32_t tally[DULLAVANE_TALLY_WORDS], page[DULLAVANE_PAGE_WORDS], drawn[DULLAVANE_DRAWN_NUMBERS], member[DULLAVANE_MEMBER_WORDS];
static int32_t measures[DULLAVANE_MEASURES];
static int64_t sums[DULLAVANE_SUMS], figures[DULLAVANE_FIGURES], rows[DULLAVANE_ROW * UNITS], deviations[POINTS];
static uint16_t numbers[UNITS], groups[UNITS];
static uint8_t homes[UNITS];
static int64_t performances[MEMBERS], factors[MEMBERS], payments[MEMBERS], used[MEMBERS], unused[MEMBERS];
static uint64_t reply[DULLAVANE_REPLY_WORDS], cursor[DULLAVANE_CURSOR_WORDS], verdict[DULLAVANE_VERDICT_WORDS], unplaced;
static float points[DULLAVANE_STRIP_POINTS], strip[DULLAVANE_STRIP_NUMBERS];

/* What the next call is made with. */
static const uint8_t *part;
static uint64_t part_bytes, text_bytes, sheet_members;
static uint32_t row, direction, set, key, pressed_book;

static void hand(const uint8_t *from, uint64_t bytes) {
    part = from;
    part_bytes = bytes;
}

#define ROSTER LENT(measures), LENT(sums), LENT(figures), LENT(numbers), LENT(homes), LENT(rows)
#define COLUMNS LENT(performances), LENT(factors), LENT(payments), LENT(used), LENT(unused)

static uint64_t contents(void) { return dullavane_contents(part, part_bytes, LENT(tally)); }
static uint64_t settings(void) { return dullavane_settings(LENT(tally), part, part_bytes); }
static uint64_t frequency(void) { return dullavane_frequency(LENT(tally), part, part_bytes, LENT(measures), LENT(sums), LENT(figures)); }
static uint64_t unit(void) { return dullavane_unit(LENT(tally), part, part_bytes, ROSTER, LENT(groups), LENT(deviations)); }
static uint64_t units(void) { return dullavane_units(LENT(tally), part, part_bytes, ROSTER, LENT(groups), LENT(deviations)); }
static uint64_t requirement(void) { return dullavane_requirement(LENT(tally), part, part_bytes); }
static uint64_t answer(void) {
    return dullavane_answer(LENT(tally), part, part_bytes, LENT(measures), LENT(sums), LENT(figures), LENT(homes), LENT(rows), COLUMNS, LENT(reply));
}
static uint64_t who(void) { return dullavane_member(LENT(tally), row, direction, set, LENT(figures), LENT(numbers), LENT(homes), LENT(member)); }
static uint64_t report(void) {
    return dullavane_report(LENT(tally), row, 65535, LENT(figures), LENT(numbers), LENT(homes), LENT(rows), text, text_bytes);
}
static uint64_t trend(void) { return dullavane_trend(part, part_bytes, LENT(points), LENT(strip), LENT(drawn)); }
static uint64_t list(void) { return dullavane_listing(LENT(cursor), LENT(tally), part, part_bytes, ROSTER, COLUMNS, text, text_bytes); }
static uint64_t press(void) {
    return dullavane_panel_press(LENT(page), key, pressed_book, LENT(tally), part, part_bytes, LENT(figures), LENT(numbers), LENT(homes), LENT(payments),
                                 LENT(used), LENT(unused), LENT(reply), text, text_bytes);
}
static uint64_t sheet(void) { return dullavane_sheet(performances, sheet_members, factors, sheet_members, LENT(verdict)); }

/* ---- a book that is taken ---- */

static void copy(uint8_t *to, const uint8_t *from, uint64_t bytes) {
    for (uint64_t i = 0; i < bytes; i++) to[i] = from[i];
}

/* A copy of a record whose last field is past any limit: it is refused at its last test. */
static void hand_broken(const uint8_t *from, uint64_t bytes) {
    copy(record, from, bytes);
    for (int i = 1; i <= 4; i++) record[bytes - (uint64_t)i] = i == 1 ? 0x7f : 0xff;
    hand(record, bytes);
}

static const uint8_t *unit_record(uint32_t u) { return book + RECORDS + (uint64_t)RECORD * u; }
static const uint8_t *requirement_record(uint32_t i) { return unit_record(tally[0]) + (uint64_t)REQUIREMENT * i; }

static void take_front(uint64_t bytes) {
    const uint8_t *at = book + DULLAVANE_CONTENTS_SIZE;
    for (uint64_t i = 0; i < DULLAVANE_CONTENTS_SIZE; i += 5) {
        copy(record, book, DULLAVANE_CONTENTS_SIZE);
        record[i] ^= 0x80;
        hand(record, DULLAVANE_CONTENTS_SIZE);
        made("dullavane_contents", "-", contents, ANY_REFUSAL);
    }
    hand(book, bytes);
    made("dullavane_contents", "-", contents, 0);
    hand(at, DULLAVANE_SETTINGS_SIZE - 1);
    made("dullavane_settings", "-", settings, 1);
    hand(at, DULLAVANE_SETTINGS_SIZE);
    made("dullavane_settings", "-", settings, 0);
    at += DULLAVANE_SETTINGS_SIZE;
    for (int r = 0; r < REGIONS; r++, at += FREQUENCY) {
        hand_broken(at, FREQUENCY);
        made("dullavane_frequency", "-", frequency, 74);
        hand(at, FREQUENCY);
        made("dullavane_frequency", "-", frequency, 0);
    }
}

/* A unit that is refused: a wrong last reading, and the number of the unit before it. */
static void refuse_unit(uint32_t u) {
    hand_broken(unit_record(u), RECORD);
    made("dullavane_unit", "-", unit, 84);
    made("dullavane_trend", "-", trend, 84);
    if (!u) return;
    copy(record, unit_record(u), RECORD);
    record[0] = record[1] = 0;
    hand(record, RECORD);
    made("dullavane_unit", "-", unit, 9);
}

static void take_units(int single) {
    uint32_t all = tally[0];
    if (!single) {
        hand(unit_record(0), (uint64_t)RECORD * all);
        made("dullavane_units", "-", units, 0);
        return;
    }
    for (uint32_t u = 0; u < all; u++) {
        if (u < 2 || u + 2 >= all) refuse_unit(u);
        hand(unit_record(u), RECORD);
        made("dullavane_unit", "-", unit, 0);
    }
}

static void take_book(uint64_t bytes, int single) {
    take_front(bytes);
    take_units(single);
    for (uint32_t i = 0; i < tally[1]; i++) {
        hand_broken(requirement_record(i), REQUIREMENT);
        made("dullavane_requirement", "-", requirement, 10);
        if (i + 1 == tally[1]) {
            hand(requirement_record(i), REQUIREMENT + 1);
            made("dullavane_requirement", "-", requirement, 4);
        }
        hand(requirement_record(i), REQUIREMENT);
        made("dullavane_requirement", "-", requirement, 0);
    }
}

/* ---- a book that was taken ---- */

static void judge(int wrong) {
    sheet_members = reply[DULLAVANE_MEMBERS];
    factors[sheet_members - 1] += wrong;
    made("dullavane_sheet", "-", sheet, 0);
    factors[sheet_members - 1] -= wrong;
    check((verdict[0] == DULLAVANE_POSSIBLE) == !wrong, "a sheet's verdict");
}

static void press_page(uint32_t from, uint32_t with) {
    page[DULLAVANE_PAGE_BOOK] = pressed_book = 7;
    page[DULLAVANE_PAGE_REQUIREMENT] = (uint32_t)(part[0] + 256 * part[1]);
    page[DULLAVANE_PAGE_NUMBER] = from;
    key = with;
    made("dullavane_panel_press", "-", press, 0);
}

/* The longest numbers that a page has room for. */
static void fill_columns(void) {
    for (int i = 0; i < MEMBERS; i++) payments[i] = used[i] = unused[i] = i % 2 ? -999999999999999 : 9999999999999999;
}

static void press_keys(void) {
    uint32_t last = (uint32_t)reply[DULLAVANE_MEMBERS];
    uint32_t pages[5] = {0, 1, last / 2, last - 1, last};
    text_bytes = DULLAVANE_PANEL_BYTES;
    for (int i = 0; i < 5; i++)
        for (uint32_t k = DULLAVANE_KEY_SHOW; k <= DULLAVANE_KEY_HOME; k++) press_page(pages[i], k);
    text_bytes--;
    page[DULLAVANE_PAGE_NUMBER] = last;
    key = DULLAVANE_KEY_SHOW;
    made("dullavane_panel_press", "-", press, 12);
}

static void answer_all(void) {
    for (uint32_t i = 0; i < tally[1]; i++) {
        hand_broken(requirement_record(i), REQUIREMENT);
        made("dullavane_answer", "-", answer, 10);
        hand(requirement_record(i), REQUIREMENT);
        made("dullavane_answer", "-", answer, 0);
        judge(0);
        if (i > 4) continue;
        judge(2);
        press_keys();
        if (i > 1) continue;
        fill_columns();
        press_keys();
        direction = part[3];
        set = part[2];
        for (row = 0; row < tally[0]; row++) made("dullavane_member", "-", who, 0);
        made("dullavane_member", "-", who, 11);
    }
}

/* The first members' rows, those in the middle, the last ones, and the residuals'. */
static void report_rows(void) {
    uint32_t members = 0, late = tally[7] > DULLAVANE_LAST_INTERVAL ? 15 : 0;
    for (uint32_t u = 0; u < tally[0]; u++) members += homes[u] != DULLAVANE_PASSED_OVER;
    for (row = 0; row < members; row++) {
        if (row > 1 && row + 2 < members && row != members / 2) continue;
        text_bytes = DULLAVANE_REPORT_BYTES;
        made("dullavane_report", "member", report, late);
        text_bytes = 1;
        made("dullavane_report", "member", report, late ? late : 12);
    }
    for (row = members; row < members + REGIONS; row++) {
        text_bytes = DULLAVANE_REPORT_BYTES;
        made("dullavane_report", "residual", report, late);
        text_bytes = 1;
        made("dullavane_report", "residual", report, late ? late : 12);
    }
    made("dullavane_report", "residual", report, 11);
}

/* The checksum of `sum`, and how many bytes: the same by pieces of any length, and told for bench/arm/worst, which holds them to the second program's listing. */
static uint32_t listed_sum, listed_bytes;

static void add_text(uint64_t bytes) {
    for (uint64_t i = 0; i < bytes; i++) listed_sum = ((listed_sum >> 1) + (listed_sum << 15) + text[i]) & 0xffff;
    listed_bytes += (uint32_t)bytes;
}

static void list_in(const char *kind, uint64_t bytes) {
    for (int i = 0; i < DULLAVANE_CURSOR_WORDS; i++) cursor[i] = 0;
    hand(requirement_record(0), (uint64_t)REQUIREMENT * tally[1]);
    text_bytes = bytes;
    listed_sum = listed_bytes = 0;
    do {
        made("dullavane_listing", kind, list, 0);
        add_text(cursor[DULLAVANE_WRITTEN]);
    } while (cursor[DULLAVANE_WRITTEN]);
    put("= ");
    put_number(listed_sum);
    putchar(' ');
    put_number(listed_bytes);
    putchar('\n');
}

static void list_all(void) {
    list_in("165", DULLAVANE_LINE_MOST);
    list_in("1200", 1200);
    list_in("4096", PIECE_MOST);
}

static void draw_units(void) {
    for (uint32_t u = 0; u < tally[0]; u++) {
        hand(unit_record(u), RECORD);
        made("dullavane_trend", "-", trend, 0);
    }
}

static void ask_all(uint64_t bytes) {
    take_book(bytes, 0);
    take_book(bytes, 1);
    answer_all();
    report_rows();
    draw_units();
    list_all();
}

/* ---- a book that is made ---- */

static uint64_t state;

static uint64_t next(void) {
    state ^= state << 13;
    state ^= state >> 7;
    return state ^= state << 17;
}

static void seed(uint64_t with) {
    state = 88172645463325252u ^ with * 0x9e3779b97f4a7c15u;
    for (int i = 0; i < 20; i++) next();
}

static int64_t any(int64_t from, int64_t most) { return from + (int64_t)(next() % (uint64_t)(most - from + 1)); }

/* Which units have a group: none, each one of its own, each two in a row, all of them one. Which points and readings are bad: none, one of each record, every
   second, all; and FEW: all readings of every unit but the first. */
enum { NONE, OWN, PAIRS, ONE, GROUPINGS };
enum { GOOD, LAST, HALF, ALL, FEW, BADS };
/* Frequencies: low and then high, anything, swings across the band (points are dropped), at the limits. Defaults: anything, all alike, made against a cut. */
enum { HALVES, ANYTHING, SWINGS, EDGES, SERIES };
enum { LOOSE, ALIKE, DISTANCES, DIGITS, HARD, DEFAULTS };
enum { WIDE, LONG, BRIEF };
static int grouped, bad, series, defaults, crowded, narrow;
static uint64_t sparse = 8;

static int64_t region_rows[REGIONS * DULLAVANE_REGION_ROW], unit_rows[UNITS * DULLAVANE_UNIT_ROW], requirement_rows[ASKED * DULLAVANE_REQUIREMENT_ROW];
static uint8_t region_qualities[REGIONS * QUALITIES], unit_qualities[UNITS * QUALITIES];
static uint32_t frequencies[REGIONS * POINTS], made_units, made_requirements;
static int32_t readings[UNITS * POINTS];

static uint64_t write(void) {
    return dullavane_write(10000, 75, 100, DULLAVANE_LAST_INTERVAL, LENT(region_rows), LENT(region_qualities), LENT(frequencies), made_units, LENT(unit_rows),
                           LENT(unit_qualities), LENT(readings), made_requirements, LENT(requirement_rows), book, DULLAVANE_BOOK_SIZE(UNITS, ASKED));
}

static int is_bad(int t) { return bad == ALL || (bad == HALF && t % 2) || (bad == LAST && t == POINTS - 1); }

static uint32_t frequency_at(int t) {
    switch (series) {
    case HALVES: return (uint32_t)(50000000 + (t < POINTS / 2 ? -1 : 1) * any(20000, 90000));
    case SWINGS: return (uint32_t)(50000000 + (t % 6 < 3 ? -1 : 1) * any(15001, 400000));
    case EDGES: return t < POINTS / 2 ? 45000000 : 55000000;
    default: return (uint32_t)any(45000000, 55000000);
    }
}

/* Weights against a cut, as in bench/share.c: distances from a middle one that grow geometrically; nearly all alike, and one apart for every six bits; alike but
   for some, one of so many (sparse), apart by powers of 2 that are drawn. */
static uint64_t apart_from(uint64_t middle, unsigned bits, int shape, uint32_t i, uint32_t n) {
    uint64_t apart = (uint64_t)1 << (shape == DISTANCES ? i * bits / n : next() % (bits + 1));
    if (shape == DISTANCES) {
        apart += apart / n * (i * bits % n);
        return i % 2 ? middle + apart : middle - apart;
    }
    return next() % 4 ? middle - apart : middle + apart / 2;
}

static uint64_t weight(int shape, uint32_t i, uint32_t n, uint64_t most) {
    uint64_t middle = most / 8 * 7, it = middle;
    unsigned bits = 0;
    while (bits < 62 && middle >> (bits + 2)) bits++;
    if (shape == LOOSE) it = next() % most;
    if (shape == DIGITS && 6 * i <= bits) it = middle - ((uint64_t)1 << (bits - 6 * i));
    if (shape == DISTANCES || (shape == HARD && next() % sparse == 0)) it = apart_from(middle, bits, shape, i, n);
    return it < most ? it : most;
}

static void make_regions(void) {
    for (int r = 0; r < REGIONS; r++) {
        int64_t *row = region_rows + DULLAVANE_REGION_ROW * r;
        row[DULLAVANE_REGION_FM_BEFORE] = series == EDGES ? -5000000 : any(-5000000, 5000000);
        row[DULLAVANE_REGION_GENERATION] = any(0, 2000000);
        for (int i = 0; i < 6; i++) row[DULLAVANE_REGION_DEFAULTS + i] = narrow == BRIEF ? -1 : -(int64_t)weight(defaults, 400, UNITS, 50000000000000000);
        for (int t = 0; t < POINTS; t++) {
            int good = bad == FEW || !is_bad(t);
            region_qualities[QUALITIES * r + t / 8] &= (uint8_t)(t % 8 ? 0xff : 0);
            region_qualities[QUALITIES * r + t / 8] |= (uint8_t)(good << t % 8);
            frequencies[POINTS * r + t] = good ? frequency_at(t) : 0;
        }
    }
}

static int64_t group_of(uint32_t u) { return grouped == OWN ? u + 1 : grouped == PAIRS ? u / 2 + 1 : grouped == ONE ? 65535 : 0; }

static void make_unit(uint32_t u) {
    int64_t *row = unit_rows + DULLAVANE_UNIT_ROW * u;
    int first = !u || grouped == NONE || group_of(u) != group_of(u - 1);
    row[DULLAVANE_UNIT_NUMBER] = 65535 - UNITS + u;
    row[DULLAVANE_UNIT_REGION] = crowded || grouped == ONE ? 4 : u / 2 % REGIONS;
    row[DULLAVANE_UNIT_KIND] = any(0, 1);
    row[DULLAVANE_UNIT_START] = any(-100000, 100000);
    row[DULLAVANE_UNIT_END] = any(-100000, 100000);
    row[DULLAVANE_UNIT_GROUP] = group_of(u);
    for (int i = 0; i < 6; i++) row[DULLAVANE_UNIT_DEFAULTS + i] = first ? -(int64_t)weight(defaults, u, made_units, 5625000000000000) : 0;
    for (int t = 0; t < POINTS; t++) {
        int good = bad == FEW ? !u : !is_bad(t);
        unit_qualities[QUALITIES * u + t / 8] &= (uint8_t)(t % 8 ? 0xff : 0);
        unit_qualities[QUALITIES * u + t / 8] |= (uint8_t)(good << t % 8);
        readings[POINTS * u + t] = good ? (int32_t)any(-100000, 100000) : 0;
    }
}

/* Pools of half as many cents as there are members, of any size, and at their limit. Over all regions, or without the last, which is all units' then (narrow): such
   requirements have two lines, short ones where the numbers are small (BRIEF), and a listing's text has room for many. */
static void make_requirement(uint32_t i) {
    int64_t *row = requirement_rows + DULLAVANE_REQUIREMENT_ROW * i;
    row[DULLAVANE_REQUIREMENT_NUMBER] = narrow == BRIEF ? i : 65535 - ASKED + i;
    row[DULLAVANE_REQUIREMENT_SET] = narrow ? 15 : 31;
    row[DULLAVANE_REQUIREMENT_DIRECTION] = i % 2;
    row[DULLAVANE_REQUIREMENT_PRICE] = i < 2 ? 1 + any(0, 99) : i == 4 ? 10000000 : any(0, 10000000) >> next() % 20;
    row[DULLAVANE_REQUIREMENT_COST] = i < 2 ? made_units : i == 4 ? 1000000000000 : any(0, 1000000000000) >> next() % 36;
    row[DULLAVANE_REQUIREMENT_ENABLED] = 2000000;
    row[DULLAVANE_REQUIREMENT_USED] = i < 2 ? 1000000 : any(0, 2000000);
    if (narrow == BRIEF) row[DULLAVANE_REQUIREMENT_PRICE] = row[DULLAVANE_REQUIREMENT_COST] = 1;
}

static void say_made(const char *how, uint32_t n, uint32_t number) {
    static const char *const groupings[] = {"no group", "each unit a group", "groups of two", "one group"};
    static const char *const bads[] = {"all good", "last point of each record bad", "every second point bad", "all points bad", "one good unit"};
    static const char *const kinds[] = {"frequency low then high", "any frequency", "frequency that swings", "frequency at its limits"};
    static const char *const shapes[] = {"any defaults", "equal defaults", "defaults at growing distances", "defaults by digits", "defaults drawn against the cut"};
    put("# ");
    put_number(n);
    put(" units ");
    put(narrow ? "of one region, not the requirements', " : crowded ? "of one region, " : "of all regions, ");
    put(groupings[grouped]);
    put(", ");
    put(bads[bad]);
    put(", ");
    put(kinds[series]);
    put(", ");
    put(shapes[defaults]);
    put(" (");
    put(how);
    putchar(' ');
    put_number(n);
    putchar(' ');
    put_number(number);
    put(")\n");
}

static void write_book(uint32_t n, uint32_t asked) {
    made_units = n;
    made_requirements = asked;
    make_regions();
    for (uint32_t u = 0; u < n; u++) make_unit(u);
    for (uint32_t i = 0; i < asked; i++) make_requirement(i);
    int64_t *last = requirement_rows + DULLAVANE_REQUIREMENT_ROW * (asked - 1);
    last[DULLAVANE_REQUIREMENT_USED] += 2000001;
    made("dullavane_write", "-", write, 10);
    last[DULLAVANE_REQUIREMENT_USED] -= 2000001;
    uint64_t written = made("dullavane_write", "-", write, 0);
    check(DULLAVANE_LENGTH(written) == DULLAVANE_BOOK_SIZE(n, asked), "a book's length");
}

/* The first seeds go through every grouping with every kind of bad points; the others turn too, each at its own pace. */
static void try_book(uint32_t n, uint32_t number) {
    seed(number);
    grouped = (int)(number % GROUPINGS);
    bad = (int)(number / GROUPINGS % BADS);
    series = (int)(number % 7 % SERIES);
    defaults = (int)(number % 11 % DEFAULTS);
    crowded = number / (GROUPINGS * BADS) % 2 == 1;
    narrow = crowded && number % 3 == 2 ? number % 2 ? LONG : BRIEF : WIDE;
    uint32_t asked = narrow || grouped == ONE ? ASKED : 5;
    say_made("made", n, number);
    write_book(n, asked);
    ask_all(DULLAVANE_BOOK_SIZE(n, asked));
}

static void try_answers(uint32_t n, uint32_t number) {
    seed(number);
    grouped = NONE;
    bad = FEW;
    series = (int)(number % SERIES);
    defaults = number % 5 ? HARD : DISTANCES + (int)(number / 5 % 2);
    crowded = number % 2;
    narrow = WIDE;
    sparse = (uint64_t)2 << next() % 7;
    uint32_t asked = number % 20 ? 13 : ASKED;
    say_made("answers", n, number);
    write_book(n, asked);
    take_book(DULLAVANE_BOOK_SIZE(n, asked), 0);
    sparse = 8;
    for (uint32_t i = 0; i < tally[1]; i++) {
        hand(requirement_record(i), REQUIREMENT);
        made("dullavane_answer", "-", answer, 0);
        judge(0);
    }
    if (asked == ASKED) list_all();
}

/* ---- numbers ---- */

enum { BELOW, ABOVE, MIXED, IDLE, REACH, WEEK_SHAPES };
static int64_t week_performances[WEEKS * INTERVALS], defaulted[WEEKS], week_reply[DULLAVANE_DEFAULT_NUMBERS];
static uint16_t whose[WEEKS], counts[WEEKS], one;
static uint64_t running[DULLAVANE_WEEK_WORDS];
static uint8_t is_live;
static int64_t added;

static uint64_t week(void) { return dullavane_week(one, week_performances, INTERVALS, live, LIVE_BYTES, LENT(week_reply)); }
static uint64_t weeks(void) {
    return dullavane_weeks(INTERVALS, LENT(whose), LENT(week_performances), live, WEEKS * LIVE_BYTES, LENT(counts), LENT(defaulted));
}
static uint64_t week_add(void) { return dullavane_week_add(one, is_live, added, LENT(running)); }
static uint64_t week_read(void) { return dullavane_week_read(one, LENT(running), LENT(week_reply)); }

static void make_weeks(int shape) {
    for (int i = 0; i < WEEKS * LIVE_BYTES; i++) live[i] = 0;
    for (int i = 0; i < WEEKS * INTERVALS; i++) {
        int64_t most = 5625000000000000 * (one ? one : 512), size = shape == REACH ? most : any(0, most);
        int is = shape == MIXED ? next() % 8 != 0 : shape != IDLE;
        week_performances[i] = shape == ABOVE || (shape == MIXED && next() % 2) ? size : -size;
        live[i / INTERVALS * LIVE_BYTES + i % INTERVALS / 8] |= (uint8_t)(is << (i % INTERVALS % 8));
    }
    for (int i = 0; i < WEEKS; i++) whose[i] = one;
}

/* say WORDS SEED: what is tried. */
static void say(const char *words, uint32_t with) {
    put("# ");
    put(words);
    put(" (numbers ");
    put_number(with);
    put(")\n");
}

/* An average below the limit of its field is refused with 14. */
static void try_weeks(int shape, uint32_t with) {
    static const char *const shapes[] = {"weeks, all live and below zero", "weeks, all live and above zero", "weeks, some live, on both sides", "weeks, none live",
                                         "weeks, all live at the limit"};
    say(shapes[shape], with);
    make_weeks(shape);
    int low = one != DULLAVANE_UNIT && (shape == REACH || shape == BELOW || shape == MIXED);
    made("dullavane_week", "-", week, low ? 14 : 0);
    made("dullavane_weeks", "-", weeks, low ? 14 : 0);
    running[0] = running[1] = 0;
    for (int i = 0; i < INTERVALS; i++) {
        is_live = live[i / 8] >> (i % 8) & 1;
        added = week_performances[i];
        made("dullavane_week_add", "-", week_add, 0);
        if (i % 5 == 0 || i + 3 > INTERVALS) made("dullavane_week_read", "-", week_read, ANY_REPLY);
    }
    made("dullavane_week_read", "-", week_read, low ? 14 : 0);
    made("dullavane_week_add", "-", week_add, 17);
}

static uint64_t weights[MEMBERS], shared_total, shared_members;
static int64_t amounts[MEMBERS];

static uint64_t share(void) { return share_amounts(shared_total, weights, shared_members, amounts, shared_members, &unplaced); }

/* Makes a share; what it places and what it leaves are the total. */
static void try_share(uint64_t total) {
    shared_total = total;
    made("share_amounts", "-", share, 0);
    for (uint64_t i = 0; i < shared_members; i++) total -= (uint64_t)amounts[i];
    check(total == unplaced, "a share's sum");
}

static void try_weights(int shape, uint32_t n) {
    shared_members = n;
    sparse = (uint64_t)2 << next() % 7;
    for (uint32_t i = 0; i < n; i++) weights[i] = weight(shape, i, n, 6010000000000000000u / n);
    try_share(n / 2);
    try_share(1000000000);
    try_share(1000000000000);
    for (int i = 0; i < 4; i++) try_share((uint64_t)any(1, 1000000000000) >> next() % 40);
    sparse = 8;
}

static void try_shares(uint32_t with) {
    static const uint32_t sizes[] = {0, 1, 5, 77, 477, 510, 512, MEMBERS};
    static const char *const shapes[] = {"a share over any weights", "a share over equal weights", "a share over weights at growing distances",
                                         "a share over weights by digits", "a share over weights drawn against the cut"};
    for (int shape = LOOSE; shape < DEFAULTS; shape++) {
        say(shapes[shape], with);
        for (unsigned k = 0; k < sizeof sizes / sizeof sizes[0]; k++) try_weights(shape, sizes[k]);
    }
    for (int i = 0; i < 20; i++) try_weights(HARD, MEMBERS);
}

/* Factors as a share makes them, of performances on both sides, on one, or none. */
static void try_sheet(int above, int below, int64_t most) {
    sheet_members = shared_members = MEMBERS;
    for (int i = 0; i < MEMBERS; i++) performances[i] = above && (!below || next() % 2) ? any(0, most) : below ? -any(0, most) : 0;
    for (int side = 1; side >= -1; side -= 2) {
        for (int i = 0; i < MEMBERS; i++) weights[i] = performances[i] * side > 0 ? (uint64_t)(performances[i] * side) : 0;
        try_share(1000000000);
        for (int i = 0; i < MEMBERS; i++)
            if (side > 0 || performances[i] < 0) factors[i] = side * amounts[i];
    }
    reply[DULLAVANE_MEMBERS] = MEMBERS;
    judge(0);
    judge(2);
}

typedef struct {
    uint32_t interval, residual, number;
    int64_t raise;
    uint32_t raise_type;
    int64_t lower;
    uint32_t lower_type, version;
} Row;
static Row line;
static int64_t read_numbers[DULLAVANE_REPORT_NUMBERS];

static uint64_t report_row(void) {
    return dullavane_report_row(line.interval, line.residual, line.number, line.raise, line.raise_type, line.lower, line.lower_type, line.version, text, text_bytes);
}
static uint64_t report_read(void) { return dullavane_report_read(part, part_bytes, LENT(read_numbers)); }

/* A row that is written and read back; without its line feed; with a second one; and with a digit more in its last column. */
static void try_row(void) {
    text_bytes = DULLAVANE_REPORT_BYTES;
    uint64_t bytes = DULLAVANE_LENGTH(made("dullavane_report_row", "-", report_row, 0));
    hand(text, bytes);
    made("dullavane_report_read", "-", report_read, 0);
    check(read_numbers[DULLAVANE_REPORT_INTERVAL] == line.interval && read_numbers[DULLAVANE_REPORT_VERSION] == line.version, "a row that was read");
    hand(text, bytes - 1);
    made("dullavane_report_read", "-", report_read, 18);
    hand(text, bytes + 1);
    text[bytes] = '\n';
    made("dullavane_report_read", "-", report_read, 18);
    text[bytes - 1] = '0';
    made("dullavane_report_read", "-", report_read, 18);
    text_bytes = bytes - 1;
    made("dullavane_report_row", "-", report_row, 12);
}

static void try_rows(void) {
    static const int64_t edges[] = {INT64_MIN, INT64_MAX, 0, -1, 7500000000};
    for (int i = 0; i < 200; i++) {
        line.interval = (uint32_t)any(0, DULLAVANE_LAST_INTERVAL);
        line.residual = (uint32_t)any(0, 1);
        line.number = line.residual ? (uint32_t)any(0, 4) : 65535;
        line.raise = i % 2 ? edges[i / 2 % 5] : (int64_t)next();
        line.lower = i % 2 ? edges[i / 10 % 5] : (int64_t)next();
        line.raise_type = line.lower_type = i % 3 == 2;
        line.version = 65535;
        try_row();
    }
}

static uint32_t residual, number, standing, refusal;
static int64_t figure[3];

static uint64_t first_page(void) { return dullavane_panel_first(number, direction, figure[0], figure[1], figure[2], text, text_bytes); }
static uint64_t member_page(void) { return dullavane_panel_member(residual, number, standing, figure[0], figure[1], figure[2], text, text_bytes); }
static uint64_t phrase(void) { return dullavane_panel_phrase(refusal, text, text_bytes); }
static uint64_t step(void) { return dullavane_panel_step(LENT(page), key, pressed_book, 5, 513); }

static void try_pages(void) {
    static const int64_t longest[] = {9999999999999999, -999999999999999, INT64_MIN, INT64_MAX, 0, -1};
    text_bytes = DULLAVANE_PANEL_BYTES;
    for (int i = 0; i < 100; i++) {
        number = i % 2 ? 65535 : (uint32_t)any(0, 65535);
        direction = (uint32_t)any(0, 1);
        residual = i % 5 == 4;
        standing = (uint32_t)any(0, 3);
        for (int k = 0; k < 3; k++) figure[k] = i < 24 ? longest[(i + k * (i / 6)) % 6] : (int64_t)next() >> next() % 60;
        made("dullavane_panel_first", "-", first_page, 0);
        made("dullavane_panel_member", "-", member_page, 0);
        refusal = (uint32_t)i;
        made("dullavane_panel_phrase", "-", phrase, 0);
        key = (uint32_t)i % 4;
        pressed_book = (uint32_t)any(0, 2);
        page[DULLAVANE_PAGE_NUMBER] = (uint32_t)any(0, 600);
        made("dullavane_panel_step", "-", step, 0);
    }
}

static void try_numbers(uint32_t with) {
    static const uint16_t members[] = {DULLAVANE_A_RESIDUAL, DULLAVANE_UNIT, 512};
    seed(with);
    for (int shape = BELOW; shape < WEEK_SHAPES; shape++) {
        one = members[(with + (uint32_t)shape) % 3];
        try_weeks(shape, with);
    }
    try_shares(with);
    say("a sheet of 513 members", with);
    try_sheet(1, 1, 5625000000000000);
    try_sheet(1, 0, 5625000000000000);
    try_sheet(0, 1, 5625000000000000);
    try_sheet(1, 1, 100);
    try_sheet(0, 0, 0);
    say("rows of the report", with);
    try_rows();
    say("pages", with);
    try_pages();
}

/* ---- what to try ---- */

/* The next word of a line, and whether the line goes on behind it. */
static int word(char *to, int room) {
    int n = 0, c = getchar();
    for (; c > ' '; c = getchar())
        if (n + 1 < room) to[n++] = (char)c;
    to[n] = 0;
    return c == ' ';
}

/* A word that is not aligned, with the trap on. */
static void load_unaligned(void) {
    trap_unaligned(1);
    uint32_t it = *(volatile uint32_t *)(void *)book;
    trap_unaligned(0);
    put_number(it);
    putchar('\n');
}

static void copy_unaligned(void) {
    trap_unaligned(1);
    memcpy(text_space + 4, book_space + 1, POINTS);
    trap_unaligned(0);
}

static uint32_t number_word(void) {
    char digits[12];
    uint32_t x = 0;
    word(digits, sizeof digits);
    for (const char *at = digits; *at; at++) x = 10 * x + (uint32_t)(*at - '0');
    return x;
}

static void take_given(void) {
    uint32_t bytes = number_word();
    char name[80];
    put("# make");
    for (int more = 1; more;) {
        more = word(name, sizeof name);
        putchar(' ');
        put(name);
    }
    putchar('\n');
    check(bytes <= DULLAVANE_BOOK_SIZE(UNITS, ASKED), "a book's size");
    for (uint32_t i = 0; i < bytes; i++) book[i] = (uint8_t)getchar();
    ask_all(bytes);
}

int main(void) {
    char what[12];
    while (word(what, sizeof what) || what[0]) {
        if (same(what, "unaligned")) load_unaligned();
        else if (same(what, "copied")) copy_unaligned();
        else if (same(what, "aligned")) align_bytes();
        else if (same(what, "book")) take_given();
        else if (same(what, "numbers")) try_numbers(number_word());
        else if (same(what, "trap")) word(trapped, sizeof trapped);
        else {
            check(same(what, "made") || same(what, "answers"), "a line");
            uint32_t n = number_word();
            (same(what, "made") ? try_book : try_answers)(n, number_word());
        }
    }
    put("end - 0\n");
    return 0;
}
