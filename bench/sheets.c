/* bench/sheets.c: a sheet of N members of the SHAPE, our own factors by whole parts and left-overs to the first, judged once; prints the verdict. bench/sheets counts
   it. */
#include "dullavane.h"

int putchar(int c);

enum { SPREAD, EQUAL, LARGE, ABOVE, NONE, LAST };

static int64_t performances[N], factors[N];

/* The whole part of 10^9 times a size over a total. */
static int64_t whole(uint64_t size, uint64_t total) { return (int64_t)((unsigned __int128)size * 1000000000 / total); }

static uint64_t size_of(int64_t x) { return x < 0 ? -(uint64_t)x : (uint64_t)x; }

/* Performances of any size on both sides, all of one size, as large as 513 can be within the limit, all on one side, or none; a sheet whose last member alone is wrong
   has been looked at to its end. */
static void make(void) {
    uint64_t x = 20261116, total[2] = {0, 0};
    int64_t left[2] = {1000000000, 1000000000};
    for (int i = 0; i < N; i++) {
        x = x * 6364136223846793005u + 1442695040888963407u;
        int64_t size = SHAPE == EQUAL ? 5625000000000000 : SHAPE == LARGE ? 6010000000000000000 / N : SHAPE == NONE ? 0 : (int64_t)(x >> 12) % 5625000000000001;
        performances[i] = SHAPE == ABOVE || (x >> 60 & 1) ? size : -size;
        total[performances[i] < 0] += size_of(performances[i]);
    }
    for (int i = 0; i < N; i++) {
        int side = performances[i] < 0;
        int64_t part = performances[i] ? whole(size_of(performances[i]), total[side]) : 0;
        left[side] -= part;
        factors[i] = side ? -part : part;
    }
    for (int i = 0; i < N; i++) {
        int side = performances[i] < 0;
        if (performances[i] && left[side] > 0 && (unsigned __int128)size_of(performances[i]) * 1000000000 % total[side]) {
            factors[i] += side ? -1 : 1;
            left[side]--;
        }
    }
    if (SHAPE == LAST) factors[N - 1] += 2;
}

int main(void) {
    uint64_t verdict[DULLAVANE_VERDICT_WORDS] = {9, 9};
    make();
    if (dullavane_sheet(performances, N, factors, N, verdict, DULLAVANE_VERDICT_WORDS)) return 1;
    if (verdict[0] != (SHAPE == LAST ? DULLAVANE_WRONG_MEMBER : DULLAVANE_POSSIBLE)) return 1;
    putchar((int)('0' + verdict[0]));
    putchar('\n');
    return 0;
}
