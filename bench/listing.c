/* bench/listing.c: the listing (dullavane_listing) of a book of N units, all of them members, and M requirements, written by dullavane_write and taken by the
   calls, in pieces of PIECE bytes. Lists it twice: first looking at the stack of every call, then through one of two functions, by whether the call answers a
   requirement, so that bench/listing can count the instructions of either. Prints how many calls of either, lines of either and bytes there are, and the most
   bytes of stack that a call of either took. Fails where a call is refused. */
#include "dullavane.h"
#include "dullavane_listing.h"

int printf(const char *form, ...);
void exit(int status);

enum { REGIONS = DULLAVANE_REGIONS, POINTS = DULLAVANE_POINTS, QUALITIES = DULLAVANE_QUALITY_BYTES, REQUIREMENT = DULLAVANE_REQUIREMENT_SIZE };
enum { MOST_CALLS = M * (N + 2) + 2 };

#define LENT(list) list, sizeof(list) / sizeof(list[0])

/* The stack is painted before a call. After it the painted bytes are looked at by a function of the same frame, from the deepest on: what the call took goes
   from the stack pointer of the function that makes it, before its arguments are laid there, to the lowest byte that has changed. */
enum { DEPTH = 1 << 13, PAINT = 0xa5 };

__attribute__((always_inline)) static inline uintptr_t stack_pointer(void) {
    uintptr_t here;
#ifdef __x86_64__
    __asm__ volatile("mov %%rsp, %0" : "=r"(here));
#else
    __asm__ volatile("mov %0, sp" : "=r"(here));
#endif
    return here;
}

__attribute__((noinline)) static unsigned stack(int paint, uintptr_t top) {
    volatile uint8_t below[DEPTH];
    int i = 0;
    /* For the compiler, which else takes them for bytes without a value: they hold what was left there. */
    __asm__ volatile("" : : "r"(below) : "memory");
    if (paint) {
        for (; i < DEPTH; i++) below[i] = PAINT;
    } else {
        while (i < DEPTH && below[i] == PAINT) i++;
    }
    return (unsigned)(top - (uintptr_t)(below + i));
}

static void check(int holds, const char *name) {
    if (holds) return;
    printf("%s: not the reply of such a call\n", name);
    exit(1);
}

/* A book, as dullavane_write takes it. */
static int64_t region_rows[REGIONS * DULLAVANE_REGION_ROW], unit_rows[N * DULLAVANE_UNIT_ROW], requirement_rows[M * DULLAVANE_REQUIREMENT_ROW];
static uint8_t region_qualities[REGIONS * QUALITIES], unit_qualities[N * QUALITIES];
static uint32_t frequencies[REGIONS * POINTS];
static int32_t readings[N * POINTS];
static uint8_t book[DULLAVANE_BOOK_SIZE(N, M)];

/* Numbers of any size, the same in every run. */
static uint64_t state = 20261117;

static int64_t any(int64_t from, int64_t most) {
    state = state * 6364136223846793005u + 1442695040888963407u;
    return from + (int64_t)((state >> 11) % (uint64_t)(most - from + 1));
}

static void all_good(uint8_t *qualities) {
    for (int t = 0; t < POINTS; t++) qualities[t / 8] |= (uint8_t)(1 << t % 8);
}

/* Low for half of the interval, then high: both directions are reliable, and performances are calculated. */
static void make_regions(void) {
    for (int r = 0; r < REGIONS; r++) {
        int64_t *row = region_rows + DULLAVANE_REGION_ROW * r;
        row[DULLAVANE_REGION_GENERATION] = any(100000, 600000);
        for (int i = 0; i < 6; i++) row[DULLAVANE_REGION_DEFAULTS + i] = any(-1000000000000, 0);
        all_good(region_qualities + QUALITIES * r);
        for (int t = 0; t < POINTS; t++) frequencies[POINTS * r + t] = (uint32_t)(50000000 + (t < POINTS / 2 ? -1 : 1) * any(20000, 90000));
    }
}

/* Every eighth unit has a bad reading, and stands on its defaults. The last numbers have five digits. */
static void make_units(void) {
    for (int u = 0; u < N; u++) {
        int64_t *row = unit_rows + DULLAVANE_UNIT_ROW * u, start = any(-40000, 40000);
        row[DULLAVANE_UNIT_NUMBER] = 128 * u;
        row[DULLAVANE_UNIT_REGION] = u / 2 % REGIONS;
        row[DULLAVANE_UNIT_KIND] = u % 3 == 2;
        row[DULLAVANE_UNIT_START] = start;
        row[DULLAVANE_UNIT_END] = start + any(-5000, 5000);
        for (int i = 0; i < 6; i++) row[DULLAVANE_UNIT_DEFAULTS + i] = any(-1000000000000, 0);
        all_good(unit_qualities + QUALITIES * u);
        for (int t = 0; t < POINTS; t++) readings[POINTS * u + t] = (int32_t)(start + any(-3000, 3000));
        if (u % 8 == 7) {
            unit_qualities[QUALITIES * u] &= 0xfe;
            readings[POINTS * u] = 0;
        }
    }
}

static void make_requirements(void) {
    for (int i = 0; i < M; i++) {
        int64_t *row = requirement_rows + DULLAVANE_REQUIREMENT_ROW * i;
        row[DULLAVANE_REQUIREMENT_NUMBER] = 65535 - M + i;
        row[DULLAVANE_REQUIREMENT_SET] = 31;
        row[DULLAVANE_REQUIREMENT_DIRECTION] = i % 2;
        row[DULLAVANE_REQUIREMENT_PRICE] = 1000000;
        row[DULLAVANE_REQUIREMENT_COST] = 999999999999;
        row[DULLAVANE_REQUIREMENT_ENABLED] = 100003;
        row[DULLAVANE_REQUIREMENT_USED] = 50021;
    }
}

/* What is kept of it. */
static uint32_t tally[DULLAVANE_TALLY_WORDS];
static int32_t measures[DULLAVANE_MEASURES];
static int64_t sums[DULLAVANE_SUMS], figures[DULLAVANE_FIGURES], rows[DULLAVANE_ROW * N], deviations[POINTS];
static uint16_t unit_numbers[N], groups[N];
static uint8_t homes[N], text[PIECE];
static int64_t performances[N + 1], factors[N + 1], payments[N + 1], used[N + 1], unused[N + 1];
static uint64_t cursor[DULLAVANE_CURSOR_WORDS];
static const uint8_t *requirements = book + sizeof book - REQUIREMENT * M;

static void take_book(void) {
    const uint8_t *at = book + DULLAVANE_CONTENTS_SIZE;
    uint64_t no = dullavane_contents(LENT(book), LENT(tally));
    no |= dullavane_settings(LENT(tally), at, DULLAVANE_SETTINGS_SIZE);
    at += DULLAVANE_SETTINGS_SIZE;
    for (int r = 0; r < REGIONS; r++) {
        no |= dullavane_frequency(LENT(tally), at, DULLAVANE_FREQUENCY_SIZE, LENT(measures), LENT(sums), LENT(figures));
        at += DULLAVANE_FREQUENCY_SIZE;
    }
    no |= dullavane_units(LENT(tally), at, DULLAVANE_UNIT_SIZE * N, LENT(measures), LENT(sums), LENT(figures), LENT(unit_numbers), LENT(homes), LENT(rows),
                          LENT(groups), LENT(deviations));
    for (int i = 0; i < M; i++) no |= dullavane_requirement(LENT(tally), requirements + REQUIREMENT * i, REQUIREMENT);
    check(no == 0, "a book that is taken");
}

#define LIST() \
    dullavane_listing(LENT(cursor), LENT(tally), requirements, REQUIREMENT * M, LENT(measures), LENT(sums), LENT(figures), LENT(unit_numbers), LENT(homes), \
                      LENT(rows), LENT(performances), LENT(factors), LENT(payments), LENT(used), LENT(unused), LENT(text))

/* In a function of its own, so that the arguments on the stack are counted, and of its frame nothing else. */
__attribute__((noinline)) static uint32_t look_at_stack(unsigned *taken) {
    uintptr_t top = stack_pointer();
    stack(1, top);
    uint32_t no = LIST();
    *taken = stack(0, top);
    return no;
}

/* For bench/listing, which counts what is executed inside either. */
__attribute__((noinline)) uint32_t list_lines(void) { return LIST(); }
__attribute__((noinline)) uint32_t list_answering(void) { return LIST(); }

/* Which call answers a requirement, and how many lines it wrote. */
static uint8_t answers[MOST_CALLS];

static unsigned lines_in(uint64_t bytes) {
    unsigned lines = 0;
    for (uint64_t i = 0; i < bytes; i++) lines += text[i] == '\n';
    return lines;
}

static void start(void) {
    for (int i = 0; i < DULLAVANE_CURSOR_WORDS; i++) cursor[i] = 0;
}

int main(void) {
    make_regions();
    make_units();
    make_requirements();
    uint64_t written = dullavane_write(10000, 10, 50, 1000, LENT(region_rows), LENT(region_qualities), LENT(frequencies), N, LENT(unit_rows),
                                       LENT(unit_qualities), LENT(readings), M, LENT(requirement_rows), LENT(book));
    check(DULLAVANE_REFUSAL(written) == 0, "a book that is written");
    take_book();
    unsigned calls[2] = {0, 0}, lines[2] = {0, 0}, most[2] = {0, 0}, taken, bytes = 0;
    start();
    for (int i = 0;; i++) {
        uint64_t before = cursor[DULLAVANE_CURSOR_REQUIREMENT];
        int first = cursor[DULLAVANE_STAGE] == DULLAVANE_STAGE_INTERVAL;
        check(i < MOST_CALLS && look_at_stack(&taken) == 0, "a piece");
        int answered = first || (before != cursor[DULLAVANE_CURSOR_REQUIREMENT] && cursor[DULLAVANE_STAGE] >= DULLAVANE_STAGE_ANSWERED);
        answers[i] = (uint8_t)answered;
        calls[answered]++;
        lines[answered] += lines_in(cursor[DULLAVANE_WRITTEN]);
        bytes += (unsigned)cursor[DULLAVANE_WRITTEN];
        if (taken > most[answered]) most[answered] = taken;
        if (cursor[DULLAVANE_WRITTEN] == 0) break;
    }
    start();
    for (int i = 0;; i++) {
        check((answers[i] ? list_answering() : list_lines()) == 0, "a piece");
        if (cursor[DULLAVANE_WRITTEN] == 0) break;
    }
    check(lines[0] + lines[1] == 1 + M * (N + 2), "lines");
    printf("%u %u %u %u %u %u %u\n", calls[0], calls[1], lines[0], lines[1], most[0], most[1], bytes);
    return 0;
}
