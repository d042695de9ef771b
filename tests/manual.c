/* manual: the book that the argument names, through the functions of the manual's section "A display, page by page", as they stand there (MANUAL_C is that
   text); prints its listing, each member by its k and with the page of the next key beside it, or `refused` with number, place and t: the same bytes as
   `settle`. */
#include MANUAL_C

#include <stdio.h>
#include <string.h>

static Kept kept;
static Answer given;
static uint32_t page[DULLAVANE_PAGE_WORDS];

/* The member that was found is the one whose page the next key draws. */
static int is_shown(const Kept *b, uint32_t i, uint32_t k, uint32_t is_residual, uint32_t number, uint32_t standing) {
    uint8_t shown[DULLAVANE_PANEL_BYTES], drawn[DULLAVANE_PANEL_BYTES];
    return press_key(b, i, &given, 1, DULLAVANE_KEY_NEXT, page, shown) == 0 && page[DULLAVANE_PAGE_NUMBER] == k + 1 &&
           dullavane_panel_member(is_residual, number, standing, given.payments[k], given.used[k], given.unused[k], LENT(drawn)) == 0 &&
           memcmp(shown, drawn, sizeof shown) == 0;
}

static void print_member(const Kept *b, uint32_t i, uint32_t k) {
    uint32_t is_residual, number, standing, no = find_member(b, requirement_at(b, i), &given, k, &is_residual, &number, &standing);
    if (no) printf("refused %u\n", no);
    if (!is_shown(b, i, k, is_residual, number, standing)) printf("another page than the member's: ");
    if (is_residual) printf("residual");
    else printf("unit %u", number);
    printf(" %s %lld %lld %lld %lld %lld\n", standing == DULLAVANE_LIVE ? "live" : "default", (long long)given.performances[k], (long long)given.factors[k],
           (long long)given.payments[k], (long long)given.used[k], (long long)given.unused[k]);
}

static void print_requirement(const Kept *b, uint32_t i) {
    const uint8_t *requirement = requirement_at(b, i);
    uint32_t no = answer_requirement(b, i, &given);
    if (no) printf("refused %u\n", no);
    printf("requirement %d %s", requirement[0] + 256 * requirement[1], requirement[3] ? "lower" : "raise");
    for (int word = DULLAVANE_RCR; word <= DULLAVANE_UNPLACED_UNUSED; word++) printf(" %llu", (unsigned long long)given.reply[word]);
    printf("\n");
    for (uint32_t k = 0; k < given.reply[DULLAVANE_MEMBERS]; k++) print_member(b, i, k);
}

int main(int count, char **words) {
    uint8_t part[DULLAVANE_UNIT_SIZE];
    FILE *book = count == 2 ? fopen(words[1], "rb") : NULL;
    if (!book) return 1;
    while (!has_ended(&kept)) {
        uint64_t no = take_record(&kept, part, fread(part, 1, record_size(&kept), book));
        if (!no) continue;
        printf("refused %u %u %u\n", DULLAVANE_REFUSAL(no), DULLAVANE_PLACE(no), DULLAVANE_T(no));
        return 0;
    }
    if (DULLAVANE_REFUSAL(take_record(&kept, part, sizeof part)) != DULLAVANE_WRONG_STATE) printf("a record is taken behind the book's end\n");
    printf("interval %u\n", kept.tally[DULLAVANE_TALLY_INTERVAL]);
    for (uint32_t i = 0; i < kept.tally[DULLAVANE_TALLY_REQUIREMENTS]; i++) print_requirement(&kept, i);
    return 0;
}
