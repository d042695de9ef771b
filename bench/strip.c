/* bench/strip.c: the trend strip of one unit of this KIND, drawn once by dullavane_trend from a record in which something is BAD or WRONG. Prints how many
   bytes of stack the call took, and fails where the reply is not the one that such a record has. bench/strip counts the instructions on x86-64, and
   bench/arm/strips on a Cortex-M4. */
#include "dullavane.h"

int printf(const char *form, ...);

/* Which readings are bad: none, the first, the last, all. What else is wrong: nothing, the header's region (81), the last reading (84). */
enum { GENERATION, LOAD };
enum { NONE, FIRST, LAST, ALL };
enum { NOTHING, REGION, READING };

enum { RECORD = 372, POINTS = DULLAVANE_POINTS, POWER = 100000 };

static uint8_t record[RECORD];
static float points[POINTS], strip[3];
static uint32_t drawn[1];

#define LENT(list) list, sizeof(list) / sizeof(list[0])

/* Numbers of any size, the same in every run. */
static uint64_t state = 20261117;

static int32_t any(void) {
    state = state * 6364136223846793005u + 1442695040888963407u;
    return (int32_t)((state >> 33) % (2 * POWER + 1)) - POWER;
}

static void put(int at, int32_t value) {
    for (int i = 0; i < 4; i++) record[at + i] = (uint8_t)((uint32_t)value >> (8 * i));
}

static int is_bad(int t) { return BAD == ALL || (BAD == FIRST && t == 0) || (BAD == LAST && t == POINTS - 1); }

/* A wrong reading is one past the limit where it is good, and none where it is bad. */
static int32_t reading(int t) {
    int32_t fine = is_bad(t) ? 0 : any();
    return WRONG == READING && t == POINTS - 1 ? POWER + 1 : fine;
}

static void make_record(void) {
    record[0] = 7;
    record[2] = WRONG == REGION ? 5 : 2;
    record[3] = KIND;
    put(4, any());
    put(8, any());
    for (int t = 0; t < POINTS; t++) {
        record[60 + t / 8] |= (uint8_t)(!is_bad(t) << t % 8);
        put(72 + 4 * t, reading(t));
    }
}

static int as_it_should(uint64_t reply) {
    if (WRONG == REGION) return reply == 81;
    if (WRONG == READING) return DULLAVANE_REFUSAL(reply) == 84 && DULLAVANE_PLACE(reply) == 0 && DULLAVANE_T(reply) == POINTS;
    return reply == 0 && drawn[0] == (BAD == NONE ? POINTS : 0);
}

/* The stack pointer of the function that this is compiled into. */
__attribute__((always_inline)) static inline uintptr_t stack_pointer(void) {
    uintptr_t here;
#ifdef __x86_64__
    __asm__ volatile("mov %%rsp, %0" : "=r"(here));
#else
    __asm__ volatile("mov %0, sp" : "=r"(here));
#endif
    return here;
}

/* The stack is painted before the call. After it the painted bytes are looked at by a function of the same frame, from the deepest on: what the call took goes
   from the stack pointer of main to the lowest byte that has changed. */
enum { DEPTH = 1 << 14, PAINT = 0xa5 };

__attribute__((noinline)) static unsigned stack(int paint, uintptr_t top) {
    volatile uint8_t below[DEPTH];
    int i = 0;
    /* For the compiler, which else takes them for bytes without a value: they hold what was left there. */
    __asm__ volatile("" : : "r"(below) : "memory");
    if (paint) {
        for (; i < DEPTH; i++) below[i] = PAINT;
    } else {
        while (i < DEPTH && below[i] == PAINT) i++;
    }
    return (unsigned)(top - (uintptr_t)(below + i));
}

/* In a function of its own, so that the arguments on the stack are counted. */
__attribute__((noinline)) static uint64_t trend(void) { return dullavane_trend(LENT(record), LENT(points), LENT(strip), LENT(drawn)); }

int main(void) {
    uintptr_t top = stack_pointer();
    make_record();
    drawn[0] = 7;
    stack(1, top);
    uint64_t reply = trend();
    unsigned taken = stack(0, top);
    if (!as_it_should(reply)) return 1;
    printf("%u\n", taken);
    return 0;
}
