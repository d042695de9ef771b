/* bench/weeks.c: the list form over a week of 2,016 intervals, then a running week of the same, of the member WHOSE and the SHAPE of week; prints what both
   come to. bench/weeks counts it. */
#include "dullavane.h"

int putchar(int c);

enum { N = DULLAVANE_MOST_INTERVALS, BELOW, ABOVE, MIXED, NONE, REACH };

static int64_t performances[N];
static uint8_t live[(N + 7) / 8];

/* Every interval live and below zero, live and above, live or not on both sides of zero, none live, or live and as far below zero as such a member can reach. */
static void make(void) {
    uint64_t x = 20261115;
    for (int i = 0; i < N; i++) {
        x = x * 6364136223846793005u + 1442695040888963407u;
        int64_t size = SHAPE == REACH ? 5625000000000000 * (WHOSE ? WHOSE : 512) : (int64_t)(x >> 12) % 5625000000000001;
        int is = SHAPE == MIXED ? (x >> 61) != 0 : SHAPE != NONE;
        performances[i] = SHAPE == ABOVE || (SHAPE == MIXED && (x >> 60 & 1)) ? size : -size;
        live[i / 8] |= (uint8_t)(is << (i % 8));
    }
}

static void put(int64_t x) {
    uint64_t size = x < 0 ? -(uint64_t)x : (uint64_t)x;
    char digits[20];
    int n = 0;
    do digits[n++] = (char)('0' + size % 10);
    while (size /= 10);
    if (x < 0) putchar('-');
    while (n) putchar(digits[--n]);
    putchar(' ');
}

int main(void) {
    int64_t reply[2] = {0, 0};
    uint32_t low = SHAPE == REACH && WHOSE != 1 ? 14 : 0; /* such an average is below the limit of its field */
    make();
    if (dullavane_week(WHOSE, performances, N, live, sizeof live, reply, 2) != low) return 1;
    put(reply[0]);
    put(reply[1]);
    uint64_t week[2] = {0, 0};
    for (int i = 0; i < N; i++)
        if (dullavane_week_add(WHOSE, live[i / 8] >> (i % 8) & 1, performances[i], week, 2)) return 1;
    if (dullavane_week_read(WHOSE, week, 2, reply, 2) != low) return 1;
    put(reply[0]);
    put(reply[1]);
    putchar('\n');
    return 0;
}
