/* Reads a script of calls of the trend strip (second/README.md, Lines of `strips`) and prints of each line what the library replies and leaves. The line
   `walk` instead takes every deviation that a unit can have through the door and holds it against C's own division. The C library's functions are declared here
   by hand, so that the kit's own compiler builds this with no header of a C library. */
#include "dullavane.h"

typedef uint8_t u8;
typedef uint32_t u32;
typedef int32_t i32;
typedef uint64_t u64;
extern int getchar(void);
extern int printf(const char *form, ...);
extern void exit(int status);

/* Elements that a list can have, and those behind it that are not lent; bytes of a record, and its points. */
enum { MOST = 1 << 12, BEHIND = 3, RECORD = 372, POINTS = 75 };

/* What the lists hold before a call, from the first element on: floats by their bits. */
enum { POINTS_BEFORE = 0x40490fdb, STRIP_BEFORE = 0x3fc00000, DRAWN_BEFORE = 7 };

static u8 room[MOST + 8];
static float points[MOST + BEHIND], strip[MOST + BEHIND];
static u32 drawn[MOST + BEHIND];
static int last, digits; /* the character that ended the number read last, and how many digits it had */

typedef union { float value; u32 bits; } both;

static u32 bits_of(float value) {
    both as;
    as.value = value;
    return as.bits;
}

static float float_of(u32 bits) {
    both as;
    as.bits = bits;
    return as.value;
}

static void stop(const char *why) {
    printf("bad script: %s\n", why);
    exit(1);
}

static void fill(u64 points_length, u64 strip_length, u64 drawn_length) {
    for (u32 i = 0; i < points_length + BEHIND; i++) points[i] = float_of(POINTS_BEFORE + i);
    for (u32 i = 0; i < strip_length + BEHIND; i++) strip[i] = float_of(STRIP_BEFORE + i);
    for (u32 i = 0; i < drawn_length + BEHIND; i++) drawn[i] = DRAWN_BEFORE + i;
}

/* The next length; `last` is what follows it. */
static u64 length(void) {
    u64 value = 0;
    digits = 0;
    for (last = getchar(); last >= '0' && last <= '9'; last = getchar()) {
        value = value * 10 + (u64)(last - '0');
        digits++;
    }
    if (!digits || value > MOST) stop("no length");
    return value;
}

static int digit(int character) {
    if (character >= '0' && character <= '9') return character - '0';
    if (character >= 'a' && character <= 'f') return character - 'a' + 10;
    return -1;
}

/* The part of a line, whose first character is read already; how many bytes it has. `-` is none. */
static u64 next_part(int character, u8 *part) {
    u64 bytes = 0;
    if (character == '-') character = getchar();
    for (; digit(character) >= 0; character = getchar()) {
        int low = digit(getchar());
        if (low < 0 || bytes == MOST) stop("no bytes");
        part[bytes++] = (u8)(16 * digit(character) + low);
    }
    if (character != ' ') stop("no part");
    return bytes;
}

/* A sum that no moved or changed number leaves as it was (FNV-1a): where it starts, and with one number more. */
#define NO_NUMBER 0xcbf29ce484222325ul

static u64 summed(u64 sum, u32 number) { return (sum ^ number) * 0x100000001b3ul; }

static u64 checksum(const u8 *bytes, u64 count) {
    u64 sum = NO_NUMBER;
    for (u64 i = 0; i < count; i++) sum = summed(sum, bytes[i]);
    return sum;
}

/* How it went is told by the reply, and by the number of points where that is 0. */
static void print_reply(u64 reply, u64 drawn_length) {
    if (reply) printf("refused %u %u %u", DULLAVANE_REFUSAL(reply), DULLAVANE_PLACE(reply), DULLAVANE_T(reply));
    else if (drawn_length && drawn[0] == POINTS) printf("drawn");
    else if (drawn_length && drawn[0] == 0) printf("bad");
    else printf("neither drawn nor bad");
}

static void call(int first, u64 line) {
    /* A record may stand anywhere in a book. */
    u8 *part = room + line % 8;
    u64 bytes = next_part(first, part);
    u64 points_length = length();
    if (last != ' ') stop("one length");
    u64 strip_length = length();
    if (last != ' ') stop("two lengths");
    u64 drawn_length = length();
    if (last != '\n') stop("a line that does not end");
    fill(points_length, strip_length, drawn_length);
    u64 before = checksum(room, sizeof room);
    u64 reply = dullavane_trend(part, bytes, points, points_length, strip, strip_length, drawn, drawn_length);
    print_reply(reply, drawn_length);
    printf(" points");
    for (u64 i = 0; i < points_length + BEHIND; i++) printf(" %08X", bits_of(points[i]));
    printf(" strip");
    for (u64 i = 0; i < strip_length + BEHIND; i++) printf(" %08X", bits_of(strip[i]));
    printf(" drawn");
    for (u64 i = 0; i < drawn_length + BEHIND; i++) printf(" %u", drawn[i]);
    printf(before == checksum(room, sizeof room) ? "\n" : " the part, which is only read, has changed\n");
}

/* The walk. A unit whose trajectory falls by one cMW in all is 75 x (reading - start) + t away from it at t, t = 1 to 75. So the distances from -200,000 to
   199,999, each at every t, meet each whole number from -14,999,999 to 15,000,000 once, and as a load their negatives. Blocks of distances are gone through in
   another order at each t, so that lowest and highest are not always at the ends. The sum over all floats by their bits, in this order, is for other machines
   to compare: on a core without a float unit C's division is the same function that the library calls. */
enum { FARTHEST = 15000000, DEVIATIONS = 2 * FARTHEST + 1, DISTANCES = 200000, BLOCK = 80, POWER = 100000, SHOWN = 5 };

static u8 met[DEVIATIONS / 8 + 1]; /* a bit for each, so that a board of 4 MB holds them */
static u64 points_off, strips_off, strips, sum = NO_NUMBER;

static void put(u32 at, i32 value) {
    for (u32 i = 0; i < 4; i++) room[at + i] = (u8)((u32)value >> (8 * i));
}

/* A start that leaves room for a block of distances from this one on; its end is one less. */
static i32 start_for(i32 first, i32 turn) {
    u32 mixed = (u32)(first + DISTANCES) * 2654435761u + (u32)turn * 40503u;
    if (first < 0) return POWER - (i32)(mixed % (u32)(DISTANCES + first + 1));
    return 1 - POWER + (i32)(mixed % (u32)(DISTANCES - BLOCK + 1 - first));
}

static void write_record(u8 load, i32 start, const i32 *readings) {
    for (u32 i = 0; i < RECORD; i++) room[i] = 0;
    room[3] = load;
    put(4, start);
    put(8, start - 1);
    for (u32 i = 0; i < 9; i++) room[60 + i] = 0xff;
    room[69] = 0x07;
    for (u32 i = 0; i < POINTS; i++) put(72 + 4 * i, readings[i]);
}

/* What stands behind the answer has to be as it was. */
static int rest_stays(void) {
    for (u32 i = 0; i < BEHIND; i++) {
        if (bits_of(points[POINTS + i]) != POINTS_BEFORE + POINTS + i) return 0;
        if (bits_of(strip[3 + i]) != STRIP_BEFORE + 3 + i || drawn[1 + i] != DRAWN_BEFORE + 1 + i) return 0;
    }
    return 1;
}

/* One strip against C's division and a plain fold of its points. */
static void check_strip(u8 load, i32 start, const i32 *readings) {
    float lowest = 0, highest = 0, point = 0;
    write_record(load, start, readings);
    fill(POINTS, 3, 1);
    u64 reply = dullavane_trend(room, RECORD, points, POINTS, strip, 3, drawn, 1);
    for (i32 t = 1; t <= POINTS; t++) {
        i32 end = start - 1;
        i32 away = 75 * (readings[t - 1] - start) - (end - start) * t;
        i32 d = load ? -away : away;
        point = (float)d / 7500.0f;
        if (t == 1 || point < lowest) lowest = point;
        if (t == 1 || point > highest) highest = point;
        met[(d + FARTHEST) / 8] |= (u8)(1 << (d + FARTHEST) % 8);
        sum = summed(sum, bits_of(points[t - 1]));
        if (bits_of(points[t - 1]) == bits_of(point)) continue;
        if (points_off++ < SHOWN) printf("deviation %d: %08X and not %08X\n", d, bits_of(points[t - 1]), bits_of(point));
    }
    strips++;
    for (u32 i = 0; i < 3; i++) sum = summed(sum, bits_of(strip[i]));
    if (!reply && drawn[0] == POINTS && rest_stays() && bits_of(strip[0]) == bits_of(lowest) && bits_of(strip[1]) == bits_of(highest) &&
        bits_of(strip[2]) == bits_of(point)) return;
    if (strips_off++ < SHOWN)
        printf("start %d, load %u: refused %u %u %u, drawn %u, strip %08X %08X %08X and not %08X %08X %08X\n", start, load, DULLAVANE_REFUSAL(reply),
               DULLAVANE_PLACE(reply), DULLAVANE_T(reply), drawn[0], bits_of(strip[0]), bits_of(strip[1]), bits_of(strip[2]), bits_of(lowest),
               bits_of(highest), bits_of(point));
}

static void walk(void) {
    i32 readings[POINTS];
    for (u8 load = 0; load < 2; load++)
        for (i32 first = -DISTANCES; first < DISTANCES; first += BLOCK)
            for (i32 turn = 0; turn < BLOCK; turn++) {
                i32 start = start_for(first, turn);
                for (i32 t = 1; t <= POINTS; t++) readings[t - 1] = start + first + (turn + 37 * t) % BLOCK;
                check_strip(load, start, readings);
            }
    u32 all = 0;
    for (u32 i = 0; i < DEVIATIONS; i++) all += met[i / 8] >> i % 8 & 1;
    printf("all %u deviations: %lu differ\n", all, (unsigned long)points_off);
    printf("lowest, highest and last of %lu strips: %lu differ\n", (unsigned long)strips, (unsigned long)strips_off);
    printf("checksum of all these floats: %08X%08X\n", (u32)(sum >> 32), (u32)sum);
}

int main(void) {
    for (u64 line = 1;; line++) {
        int first = getchar();
        if (first < 0) return 0;
        if (first != 'w') {
            call(first, line);
            continue;
        }
        if (getchar() != 'a' || getchar() != 'l' || getchar() != 'k' || getchar() != '\n') stop("no line");
        walk();
    }
}
