/* Reads lines `T w1 w2 ...` and prints the amounts with what is unplaced, or `refused N`, by the library's share. The C library's functions are declared
   here by hand, so that the kit's own compiler builds this with no header. */
typedef unsigned long u64;
typedef long i64;
extern int getchar(void);
extern int printf(const char *form, ...);
extern unsigned share_amounts(u64 total, const u64 *weights, u64 n, i64 *amounts, u64 room, u64 *unplaced);

enum { MOST = 600 };
static u64 numbers[MOST + 1];
static i64 amounts[MOST];

/* The numbers of one line, and how many there are; -1 at the end of the input. */
static int line(void) {
    int n = 0, inside = 0, c = getchar();
    if (c < 0) return -1;
    for (; c >= 0 && c != '\n'; c = getchar()) {
        if (c == ' ') {
            inside = 0;
        } else {
            if (!inside) numbers[n++] = 0;
            inside = 1;
            numbers[n - 1] = numbers[n - 1] * 10 + (u64)(c - '0');
        }
    }
    return n;
}

int main(void) {
    for (int n = line(); n > 0; n = line()) {
        u64 unplaced = 0, members = (u64)(n - 1);
        unsigned no = share_amounts(numbers[0], numbers + 1, members, amounts, members, &unplaced);
        if (no) {
            printf("refused %u\n", no);
            continue;
        }
        for (u64 i = 0; i < members; i++) printf("%ld ", amounts[i]);
        printf("unplaced %lu\n", unplaced);
    }
    return 0;
}
