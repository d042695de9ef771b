/* bench/writer.c: a book of N units and 32 requirements, with GROUPED units and BAD points and readings, written once by dullavane_write. Prints its length and
   how many bytes of stack the call took. bench/writer counts the instructions. */
#include "dullavane.h"

int printf(const char *form, ...);

/* Which units have a group: none, each one of its own, each two in a row. Which points and readings are bad: none, one of each record, every second, all. */
enum { NONE, OWN, PAIRS };
enum { GOOD, ONE, HALF, ALL };

enum { REGIONS = DULLAVANE_REGIONS, POINTS = DULLAVANE_POINTS, BYTES = DULLAVANE_QUALITY_BYTES, REQUIREMENTS = DULLAVANE_MOST_REQUIREMENTS };

static int64_t region_rows[REGIONS * DULLAVANE_REGION_ROW], unit_rows[N * DULLAVANE_UNIT_ROW], requirement_rows[REQUIREMENTS * DULLAVANE_REQUIREMENT_ROW];
static uint8_t region_qualities[REGIONS * BYTES], unit_qualities[N * BYTES];
static uint32_t frequencies[REGIONS * POINTS];
static int32_t readings[N * POINTS];
static uint8_t book[DULLAVANE_BOOK_SIZE(N, REQUIREMENTS)];

#define LENT(list) list, sizeof(list) / sizeof(list[0])

/* Numbers of any size, the same in every run. */
static uint64_t state = 20261117;

static int64_t any(int64_t least, int64_t most) {
    state = state * 6364136223846793005u + 1442695040888963407u;
    return least + (int64_t)((state >> 11) % (uint64_t)(most - least + 1));
}

static int is_bad(int t) { return BAD == ALL || (BAD == HALF && t % 2) || (BAD == ONE && t == 40); }

static void make_regions(void) {
    for (int r = 0; r < REGIONS; r++) {
        int64_t *row = region_rows + DULLAVANE_REGION_ROW * r;
        row[DULLAVANE_REGION_FM_BEFORE] = any(-5000000, 5000000);
        row[DULLAVANE_REGION_GENERATION] = any(0, 2000000);
        for (int i = 0; i < 6; i++) row[DULLAVANE_REGION_DEFAULTS + i] = any(-50000000000000000, 0);
        for (int t = 0; t < POINTS; t++) {
            region_qualities[BYTES * r + t / 8] |= (uint8_t)(!is_bad(t) << t % 8);
            frequencies[POINTS * r + t] = is_bad(t) ? 0 : (uint32_t)any(45000000, 55000000);
        }
    }
}

/* Only the first of a group has defaults. */
static void make_units(void) {
    for (int u = 0; u < N; u++) {
        int64_t *row = unit_rows + DULLAVANE_UNIT_ROW * u;
        row[DULLAVANE_UNIT_NUMBER] = 100 * u;
        row[DULLAVANE_UNIT_REGION] = u / 2 % REGIONS;
        row[DULLAVANE_UNIT_KIND] = any(0, 1);
        row[DULLAVANE_UNIT_START] = any(-100000, 100000);
        row[DULLAVANE_UNIT_END] = any(-100000, 100000);
        row[DULLAVANE_UNIT_GROUP] = GROUPED == OWN ? u + 1 : GROUPED == PAIRS ? u / 2 + 1 : 0;
        for (int i = 0; i < 6; i++) row[DULLAVANE_UNIT_DEFAULTS + i] = GROUPED == PAIRS && u % 2 ? 0 : any(-5625000000000000, 0);
        for (int t = 0; t < POINTS; t++) {
            unit_qualities[BYTES * u + t / 8] |= (uint8_t)(!is_bad(t) << t % 8);
            readings[POINTS * u + t] = is_bad(t) ? 0 : (int32_t)any(-100000, 100000);
        }
    }
}

static void make_requirements(void) {
    for (int q = 0; q < REQUIREMENTS; q++) {
        int64_t *row = requirement_rows + DULLAVANE_REQUIREMENT_ROW * q;
        row[DULLAVANE_REQUIREMENT_NUMBER] = q;
        row[DULLAVANE_REQUIREMENT_SET] = any(1, 31);
        row[DULLAVANE_REQUIREMENT_DIRECTION] = any(0, 1);
        row[DULLAVANE_REQUIREMENT_PRICE] = any(0, 10000000);
        row[DULLAVANE_REQUIREMENT_COST] = any(0, 1000000000000);
        row[DULLAVANE_REQUIREMENT_ENABLED] = any(0, 2000000);
        row[DULLAVANE_REQUIREMENT_USED] = any(0, 2000000);
    }
}

/* The stack is painted before the call. After it the painted bytes are looked at by a function of the same frame, from the deepest on: what the call took goes
   from the stack pointer of main, which is 16 above this frame, to the lowest byte that has changed. */
enum { DEPTH = 1 << 16, PAINT = 0xa5 };

__attribute__((noinline)) static uint64_t stack(int paint) {
    volatile uint8_t below[DEPTH];
    int i = 0;
    if (paint) {
        for (; i < DEPTH; i++) below[i] = PAINT;
    } else {
        while (i < DEPTH && below[i] == PAINT) i++;
    }
    return (uintptr_t)__builtin_frame_address(0) + 16 - (uintptr_t)(below + i);
}

/* In a function of its own, so that the arguments on the stack are counted. */
__attribute__((noinline)) static uint64_t written(void) {
    return dullavane_write(10000, 10, 20, 7, LENT(region_rows), LENT(region_qualities), LENT(frequencies), N, LENT(unit_rows), LENT(unit_qualities),
                           LENT(readings), REQUIREMENTS, LENT(requirement_rows), LENT(book));
}

int main(void) {
    make_regions();
    make_units();
    make_requirements();
    stack(1);
    uint64_t reply = written(), taken = stack(0);
    if (DULLAVANE_REFUSAL(reply) || DULLAVANE_LENGTH(reply) != sizeof(book)) return 1;
    printf("%u %u\n", DULLAVANE_LENGTH(reply), (unsigned)taken);
    return 0;
}
