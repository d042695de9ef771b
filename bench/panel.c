/* bench/panel.c: key presses (dullavane_panel_press) on a book of N units with this ROSTER, written by dullavane_write, taken by the calls and answered once:
   on the first page, the first member's, one in the middle, the last unit's or group's and the residual's, each by every key that leads there and drawn
   again, and from another book. With TARGET only those that end on that page. Prints a line a press: a name, and how many bytes of stack the call took.
   Fails where a press is refused or the page is not the one that the key leads to. bench/panel counts the instructions on x86-64, and bench/arm/panel on a
   Cortex-M4. */
#include "dullavane.h"
#include "dullavane_panel.h"

int printf(const char *form, ...);
void exit(int status);

/* Units of all five regions, all in the requirement's set; the same in groups of two; all of one region, which is the set; all of one that is not in it. */
enum { SPREAD, PAIRS, REGION, OTHER };
/* The page that a press ends on. */
enum { FIRST, FIRST_MEMBER, MIDDLE, LAST_UNIT, RESIDUAL, TARGETS };
#ifndef TARGET
#define TARGET TARGETS
#endif
enum { SHOW = DULLAVANE_KEY_SHOW, NEXT = DULLAVANE_KEY_NEXT, PREVIOUS = DULLAVANE_KEY_PREVIOUS, HOME = DULLAVANE_KEY_HOME };

enum { REGIONS = DULLAVANE_REGIONS, POINTS = DULLAVANE_POINTS, QUALITIES = DULLAVANE_QUALITY_BYTES, BOOK = 7, NUMBER = 65535 };

#define LENT(list) list, sizeof(list) / sizeof(list[0])

/* The stack is painted before a call. After it the painted bytes are looked at by a function of the same frame, from the deepest on: what the call took goes
   from the stack pointer of the function that makes it, before its arguments are laid there, to the lowest byte that has changed. */
enum { DEPTH = 1 << 13, PAINT = 0xa5 };

__attribute__((always_inline)) static inline uintptr_t stack_pointer(void) {
    uintptr_t here;
#ifdef __x86_64__
    __asm__ volatile("mov %%rsp, %0" : "=r"(here));
#else
    __asm__ volatile("mov %0, sp" : "=r"(here));
#endif
    return here;
}

__attribute__((noinline)) static unsigned stack(int paint, uintptr_t top) {
    volatile uint8_t below[DEPTH];
    int i = 0;
    /* For the compiler, which else takes them for bytes without a value: they hold what was left there. */
    __asm__ volatile("" : : "r"(below) : "memory");
    if (paint) {
        for (; i < DEPTH; i++) below[i] = PAINT;
    } else {
        while (i < DEPTH && below[i] == PAINT) i++;
    }
    return (unsigned)(top - (uintptr_t)(below + i));
}

static void check(int holds, const char *name) {
    if (holds) return;
    printf("%s: not the reply of such a press\n", name);
    exit(1);
}

/* A book, as dullavane_write takes it. */
static int64_t region_rows[REGIONS * DULLAVANE_REGION_ROW], unit_rows[N * DULLAVANE_UNIT_ROW], requirement_rows[DULLAVANE_REQUIREMENT_ROW];
static uint8_t region_qualities[REGIONS * QUALITIES], unit_qualities[N * QUALITIES];
static uint32_t frequencies[REGIONS * POINTS];
static int32_t readings[N * POINTS];
static uint8_t book[DULLAVANE_BOOK_SIZE(N, 1)];

/* Numbers of any size, the same in every run. */
static uint64_t state = 20261117;

static int64_t any(int64_t from, int64_t most) {
    state = state * 6364136223846793005u + 1442695040888963407u;
    return from + (int64_t)((state >> 11) % (uint64_t)(most - from + 1));
}

static void all_good(uint8_t *qualities) {
    for (int t = 0; t < POINTS; t++) qualities[t / 8] |= (uint8_t)(1 << t % 8);
}

/* Low for half of the interval, then high: both directions are reliable, and performances are calculated. */
static void make_regions(void) {
    for (int r = 0; r < REGIONS; r++) {
        int64_t *row = region_rows + DULLAVANE_REGION_ROW * r;
        row[DULLAVANE_REGION_GENERATION] = any(100000, 600000);
        for (int i = 0; i < 6; i++) row[DULLAVANE_REGION_DEFAULTS + i] = any(-1000000000000, 0);
        all_good(region_qualities + QUALITIES * r);
        for (int t = 0; t < POINTS; t++) frequencies[POINTS * r + t] = (uint32_t)(50000000 + (t < POINTS / 2 ? -1 : 1) * any(20000, 90000));
    }
}

/* Every eighth unit has a bad reading, and stands on its defaults. Only the first of a group has defaults. The last numbers have five digits. */
static void make_units(void) {
    for (int u = 0; u < N; u++) {
        int64_t *row = unit_rows + DULLAVANE_UNIT_ROW * u, start = any(-40000, 40000);
        row[DULLAVANE_UNIT_NUMBER] = 128 * u;
        row[DULLAVANE_UNIT_REGION] = ROSTER == SPREAD || ROSTER == PAIRS ? u / 2 % REGIONS : 2;
        row[DULLAVANE_UNIT_KIND] = u % 3 == 2;
        row[DULLAVANE_UNIT_START] = start;
        row[DULLAVANE_UNIT_END] = start + any(-5000, 5000);
        row[DULLAVANE_UNIT_GROUP] = ROSTER == PAIRS ? u / 2 + 1 : 0;
        for (int i = 0; i < 6; i++) row[DULLAVANE_UNIT_DEFAULTS + i] = ROSTER != PAIRS || u % 2 == 0 ? any(-1000000000000, 0) : 0;
        all_good(unit_qualities + QUALITIES * u);
        for (int t = 0; t < POINTS; t++) readings[POINTS * u + t] = (int32_t)(start + any(-3000, 3000));
        if (u % 8 == 7) {
            unit_qualities[QUALITIES * u] &= 0xfe;
            readings[POINTS * u] = 0;
        }
    }
}

static void make_requirement(void) {
    requirement_rows[DULLAVANE_REQUIREMENT_NUMBER] = NUMBER;
    requirement_rows[DULLAVANE_REQUIREMENT_SET] = ROSTER == REGION ? 4 : ROSTER == OTHER ? 27 : 31;
    requirement_rows[DULLAVANE_REQUIREMENT_PRICE] = 1000000;
    requirement_rows[DULLAVANE_REQUIREMENT_COST] = 999999999999;
    requirement_rows[DULLAVANE_REQUIREMENT_ENABLED] = 100003;
    requirement_rows[DULLAVANE_REQUIREMENT_USED] = 50021;
}

/* What is kept of it, and its answer. */
static uint32_t tally[DULLAVANE_TALLY_WORDS], page[DULLAVANE_PAGE_WORDS];
static int32_t measures[DULLAVANE_MEASURES];
static int64_t sums[DULLAVANE_SUMS], figures[DULLAVANE_FIGURES], rows[DULLAVANE_ROW * N], deviations[POINTS];
static uint16_t unit_numbers[N], groups[N];
static uint8_t homes[N], text[DULLAVANE_PANEL_BYTES];
static int64_t performances[N + 1], factors[N + 1], payments[N + 1], used[N + 1], unused[N + 1];
static uint64_t reply[DULLAVANE_REPLY_WORDS];
static const uint8_t *part = book + sizeof book - DULLAVANE_REQUIREMENT_SIZE;

static void take_book(void) {
    const uint8_t *at = book + DULLAVANE_CONTENTS_SIZE;
    uint64_t no = dullavane_contents(LENT(book), LENT(tally));
    no |= dullavane_settings(LENT(tally), at, DULLAVANE_SETTINGS_SIZE);
    at += DULLAVANE_SETTINGS_SIZE;
    for (int r = 0; r < REGIONS; r++) {
        no |= dullavane_frequency(LENT(tally), at, DULLAVANE_FREQUENCY_SIZE, LENT(measures), LENT(sums), LENT(figures));
        at += DULLAVANE_FREQUENCY_SIZE;
    }
    no |= dullavane_units(LENT(tally), at, DULLAVANE_UNIT_SIZE * N, LENT(measures), LENT(sums), LENT(figures), LENT(unit_numbers), LENT(homes), LENT(rows),
                          LENT(groups), LENT(deviations));
    no |= dullavane_requirement(LENT(tally), part, DULLAVANE_REQUIREMENT_SIZE);
    no |= dullavane_answer(LENT(tally), part, DULLAVANE_REQUIREMENT_SIZE, LENT(measures), LENT(sums), LENT(figures), LENT(homes), LENT(rows),
                           LENT(performances), LENT(factors), LENT(payments), LENT(used), LENT(unused), LENT(reply));
    check(no == 0, "a book that is taken");
}

/* In a function of its own, so that the arguments on the stack are counted, and of its frame nothing else. */
__attribute__((noinline)) static uint32_t call_press(uint32_t key, uint32_t number, unsigned *taken) {
    uintptr_t top = stack_pointer();
    stack(1, top);
    uint32_t no = dullavane_panel_press(LENT(page), key, number, LENT(tally), part, DULLAVANE_REQUIREMENT_SIZE, LENT(figures), LENT(unit_numbers), LENT(homes),
                                        LENT(payments), LENT(used), LENT(unused), LENT(reply), LENT(text));
    *taken = stack(0, top);
    return no;
}

static const char *const names[TARGETS] = {"first page", "first member", "member in the middle", "last unit or group", "residual"};
static const char *const keys[] = {"show", "next", "previous", "home"};

/* A press from this page, which ends on the target's. */
static void press(int target, uint32_t from, uint32_t key, uint32_t of, uint32_t to) {
    unsigned taken;
    if (TARGET != TARGETS && TARGET != target) return;
    page[DULLAVANE_PAGE_BOOK] = of;
    page[DULLAVANE_PAGE_REQUIREMENT] = NUMBER;
    page[DULLAVANE_PAGE_NUMBER] = from;
    uint32_t no = call_press(key, BOOK, &taken);
    check(no == 0 && page[DULLAVANE_PAGE_BOOK] == BOOK && page[DULLAVANE_PAGE_NUMBER] == to, names[target]);
    const char *how = from == to && key != SHOW ? ", where it stays" : from > to + 1 && key == NEXT ? " from past the last" : "";
    if (of != BOOK) how = " from another book";
    printf("%s, %s%s\t%u\n", names[target], keys[key], how, taken);
}

/* Every key that leads to a page. */
static void press_to(int target, uint32_t to, uint32_t last) {
    press(target, to, SHOW, BOOK, to);
    if (to > 0) press(target, to - 1, NEXT, BOOK, to);
    if (to < last) press(target, to + 1, PREVIOUS, BOOK, to);
    if (to == last) press(target, to, NEXT, BOOK, to);
    if (to == last) press(target, UINT32_MAX, NEXT, BOOK, to);
    if (to > 0) return;
    press(target, to, PREVIOUS, BOOK, to);
    press(target, last, HOME, BOOK, to);
    press(target, last, SHOW, BOOK + 1, to);
    press(target, last, PREVIOUS, BOOK + 1, to);
}

int main(void) {
    make_regions();
    make_units();
    make_requirement();
    uint64_t written = dullavane_write(10000, 10, 50, 1000, LENT(region_rows), LENT(region_qualities), LENT(frequencies), N, LENT(unit_rows),
                                       LENT(unit_qualities), LENT(readings), 1, LENT(requirement_rows), LENT(book));
    check(DULLAVANE_REFUSAL(written) == 0, "a book that is written");
    take_book();
    uint32_t last = (uint32_t)reply[DULLAVANE_MEMBERS];
    check(last == (ROSTER == OTHER ? 1 : ROSTER == PAIRS ? N / 2 + 1 : N + 1), "members");
    press_to(FIRST, 0, last);
    if (ROSTER != OTHER) {
        press_to(FIRST_MEMBER, 1, last);
        press_to(MIDDLE, last / 2, last);
        press_to(LAST_UNIT, last - 1, last);
    }
    press_to(RESIDUAL, last, last);
    return 0;
}
