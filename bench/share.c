/* Instructions of one share: the library's, and C with 128-bit integers, which halves among the remainders, and of equal ones among the weights.
   share N SHAPE WHICH: N weights; SHAPE random, equal, one or two, tied (all remainders equal), distances or digits (made against a cut), or hard or tied
   and a number (drawn like those, for bench/share_search); WHICH lib or c. Prints a sum of the amounts, to compare the two. */
#include <stdint.h>
#include <stdio.h>
#include <stdlib.h>
#include <string.h>

uint32_t share_amounts(uint64_t total, const uint64_t *weights, size_t n, int64_t *amounts, size_t room, uint64_t *unplaced);

#define TOTAL_LIMIT 1000000000000ull
#define WEIGHT_LIMIT 6010000000000000000ull

static uint64_t count_from(const int64_t *rests, size_t n, int64_t bound) {
    uint64_t found = 0;
    for (size_t i = 0; i < n; i++) found += rests[i] >= bound;
    return found;
}

static uint64_t count_heavy(const int64_t *rests, const uint64_t *w, size_t n, int64_t rest, uint64_t bound) {
    uint64_t found = 0;
    for (size_t i = 0; i < n; i++) found += rests[i] == rest && w[i] >= bound;
    return found;
}

__attribute__((noinline)) uint32_t share_in_c(uint64_t total, const uint64_t *w, size_t n, int64_t *out, size_t room, uint64_t *unplaced) {
    if (room < n) return 12;
    if (total > TOTAL_LIMIT) return 5;
    uint64_t sum = 0, left = total, place;
    for (size_t i = 0; i < n; i++) {
        if (w[i] > WEIGHT_LIMIT - sum) return 5;
        sum += w[i];
    }
    *unplaced = 0;
    if (sum == 0) {
        memset(out, 0, n * sizeof *out);
        *unplaced = total;
        return 0;
    }
    for (size_t i = 0; i < n; i++) {
        unsigned __int128 x = (unsigned __int128)total * w[i];
        left -= (uint64_t)(x / sum);
        out[i] = (int64_t)(x % sum);
    }
    int64_t low = 1, high = (int64_t)sum;
    if (left == 0) low = high;
    while (high - low > 1) {
        int64_t middle = low + (high - low) / 2;
        uint64_t found = count_from(out, n, middle);
        if (found == left) {
            low = middle - 1;
            break;
        }
        if (found < left) high = middle;
        else low = middle;
    }
    place = count_from(out, n, low + 1);
    uint64_t light = 0, heavy = sum + 1;
    if (place == left) light = heavy;
    while (heavy - light > 1) {
        uint64_t middle = light + (heavy - light) / 2;
        if (place + count_heavy(out, w, n, low, middle) < left) heavy = middle;
        else light = middle;
    }
    place += count_heavy(out, w, n, low, light + 1);
    for (size_t i = 0; i < n; i++) {
        int64_t rest = out[i];
        out[i] = (int64_t)((unsigned __int128)total * w[i] / sum);
        if (rest > low || (rest == low && w[i] > light)) out[i]++;
        else if (rest == low && w[i] == light && place++ < left) out[i]++;
    }
    return 0;
}

static uint64_t state = 88172645463325252ull;
static uint64_t next(void) {
    state ^= state << 13;
    state ^= state >> 7;
    return state ^= state << 17;
}

/* Weights against a cut. A total of half the members is so small that the remainders are the weights times the total, and half of them get one more.
   distances: on either side of a middle weight, growing geometrically.
   digits: nearly all alike, and one apart for every six bits, so that a cut by digits loses one a pass.
   hard SEED: alike but for some, apart by powers of 2 that are drawn, one for every six bits or more; the total is drawn too. */
static uint64_t against(const char *shape, size_t n, uint64_t *w) {
    uint64_t middle = WEIGHT_LIMIT / n / 8 * 7;
    unsigned bits = 0;
    while (bits < 62 && middle >> (bits + 2)) bits++;
    for (size_t i = 0; i < n; i++) w[i] = middle;
    if (!strcmp(shape, "distances")) {
        for (size_t i = 0; i < n; i++) {
            uint64_t apart = 1ull << (i * bits / n);
            apart += apart / n * (i * bits % n);
            w[i] += i % 2 ? apart : -apart;
        }
        return n / 2;
    }
    if (!strcmp(shape, "digits")) {
        for (size_t i = 0; i < n && 6 * i <= bits; i++) w[i] -= 1ull << (bits - 6 * i);
        return n / 2;
    }
    state ^= strtoull(shape + 4, 0, 10) * 0x9e3779b97f4a7c15ull;
    for (int i = 0; i < 20; i++) next();
    uint64_t turn = next() % 4, few = 1 + next() % 4, total = turn == 0 ? n / 2 : turn == 1 ? (n / 2) | 1 : turn == 2 ? 1 + next() % n : 1 + next() % (1ull << next() % 40);
    for (unsigned low = 0; low <= bits; low += 6) {
        for (uint64_t i = 0; i < few; i++) {
            uint64_t apart = 1ull << (low + next() % 6);
            if (apart < middle) w[next() % n] = next() % 4 ? middle - apart : middle + apart / 2;
        }
    }
    return total;
}

/* Weights whose remainders are all equal. W is g times D, D a multiple of n; a weight is the same number and some times D, and T a multiple of g, so that T times D
   is a multiple of W. tied: of two sizes. tied SEED: alike but for some, apart by powers of 2 that are drawn. */
static uint64_t ties(const char *shape, size_t n, uint64_t *w) {
    uint64_t seed = strtoull(shape + 4, 0, 10), g = 1000003, all = 0;
    state ^= seed * 0x9e3779b97f4a7c15ull;
    for (int i = 0; i < 20; i++) next();
    if (seed) g = (1ull << (16 + next() % 22)) + next() % 5;
    uint64_t base = seed ? g / n / 4 : 0;
    for (size_t i = 0; i < n; i++) w[i] = seed ? base : i % 2;
    for (uint64_t apart = 1; apart <= base; apart <<= 1 + next() % 6) w[next() % n] = next() % 4 ? base - apart : base + apart / 2;
    for (size_t i = 0; i < n; i++) all += w[i];
    uint64_t d = WEIGHT_LIMIT / g / n, times = 1;
    while (g * times < TOTAL_LIMIT / 2 && (times % n * ((g - all) % n) % n < n / 3 || times % n * ((g - all) % n) % n > n / 3 * 2)) times++;
    for (size_t i = 0; i < n; i++) w[i] = d * (g - all) + w[i] * n * d;
    return g * times;
}

int main(int argc, char **argv) {
    if (argc != 4) return 2;
    size_t n = strtoull(argv[1], 0, 10);
    uint64_t *w = calloc(n, sizeof *w), unplaced = 0, total = TOTAL_LIMIT - 1;
    int64_t *out = calloc(n, sizeof *out), all = 0;
    for (size_t i = 0; i < n; i++) {
        uint64_t most = WEIGHT_LIMIT / n;
        w[i] = !strcmp(argv[2], "random") ? next() % most : !strcmp(argv[2], "equal") ? most : !strcmp(argv[2], "two") ? most - i % 2 : i == n / 2;
    }
    if (!strcmp(argv[2], "distances") || !strcmp(argv[2], "digits") || !strncmp(argv[2], "hard", 4)) total = against(argv[2], n, w);
    if (!strncmp(argv[2], "tied", 4)) total = ties(argv[2], n, w);
    uint32_t r = !strcmp(argv[3], "c") ? share_in_c(total, w, n, out, n, &unplaced) : share_amounts(total, w, n, out, n, &unplaced);
    for (size_t i = 0; i < n; i++) all += out[i] * (int64_t)(i + 1);
    printf("%u %llu %lld\n", r, (unsigned long long)unplaced, (long long)all);
    return 0;
}
