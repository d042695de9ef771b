/* listing BOOK LISTING SEED: takes the book through the calls of dullavane.h, then lists it over and over by dullavane_listing, with texts of many lengths, and
   holds every call against the listing in the second file: the reply, the cursor's first word, each byte of the text, and that a call which writes nothing
   leaves cursor, columns and text as they were. Then calls with lists, tallies and cursors that no listing has. Prints how many calls were held to that; says
   what was wrong and ends with a status other than 0 at the first that was not. */
#include <stdio.h>
#include <stdlib.h>
#include <string.h>

#include "dullavane.h"
#include "dullavane_listing.h"

enum { UNITS = DULLAVANE_MOST_UNITS, MEMBERS = DULLAVANE_MOST_MEMBERS, REQUIREMENT = DULLAVANE_REQUIREMENT_SIZE, WORDS = DULLAVANE_CURSOR_WORDS };
/* Bytes and words behind what is lent, which are not lent, and what they and the text hold before a call. */
enum { BEHIND = 16, BEFORE = 0xa5, LONG_TEXT = 1 << 21, MOST_FILE = 1 << 22, ROOM = 333 };
enum { NO_ROOM = 12, WRONG_STATE = 11, ENDS_EARLY = 1 };

typedef struct {
    int64_t performances[MEMBERS], factors[MEMBERS], payments[MEMBERS], used[MEMBERS], unused[MEMBERS];
} columns;

static uint8_t *book, *expected, *text, *untouched;
static uint64_t book_bytes, expected_bytes, calls;
static uint32_t tally[DULLAVANE_TALLY_WORDS];
static int32_t measures[DULLAVANE_MEASURES];
static int64_t sums[DULLAVANE_SUMS], figures[DULLAVANE_FIGURES], rows[DULLAVANE_ROW * UNITS], deviations[DULLAVANE_POINTS];
static uint16_t numbers[UNITS], groups[UNITS];
static uint8_t homes[UNITS];
static const uint8_t *requirements;
static uint64_t requirement_bytes;
static uint64_t cursor[WORDS + BEHIND];
static columns lent;

/* What a call is lent: how much of each list. */
typedef struct {
    uint64_t words, tally, bytes, measures, sums, figures, numbers, homes, rows, column[5], room;
} lengths;

#define LENT(list) list, sizeof(list) / sizeof(list[0])

static uint64_t state;

static uint64_t any(uint64_t below) {
    state = state * 6364136223846793005u + 1442695040888963407u;
    return (state >> 16) % below;
}

static void fail(const char *why) {
    printf("call %llu: %s; reply words", (unsigned long long)calls, why);
    for (int i = 0; i < WORDS; i++) printf(" %llu", (unsigned long long)cursor[i]);
    printf("\n");
    exit(1);
}

static void hold(int holds, const char *why) {
    if (!holds) fail(why);
}

static uint8_t *file(const char *name, uint64_t *bytes) {
    uint8_t *all = malloc(MOST_FILE);
    FILE *from = fopen(name, "rb");
    if (!all || !from) exit(2);
    *bytes = fread(all, 1, MOST_FILE, from);
    fclose(from);
    return all;
}

static void take_book(void) {
    const uint8_t *at = book + DULLAVANE_CONTENTS_SIZE;
    uint64_t no = dullavane_contents(book, book_bytes, LENT(tally));
    no |= dullavane_settings(LENT(tally), at, DULLAVANE_SETTINGS_SIZE);
    at += DULLAVANE_SETTINGS_SIZE;
    for (int i = 0; i < DULLAVANE_REGIONS; i++, at += DULLAVANE_FREQUENCY_SIZE)
        no |= dullavane_frequency(LENT(tally), at, DULLAVANE_FREQUENCY_SIZE, LENT(measures), LENT(sums), LENT(figures));
    no |= dullavane_units(LENT(tally), at, (uint64_t)DULLAVANE_UNIT_SIZE * tally[0], LENT(measures), LENT(sums), LENT(figures), LENT(numbers), LENT(homes),
                          LENT(rows), LENT(groups), LENT(deviations));
    at += (uint64_t)DULLAVANE_UNIT_SIZE * tally[0];
    requirements = at;
    requirement_bytes = (uint64_t)REQUIREMENT * tally[1];
    for (uint32_t i = 0; i < tally[1]; i++, at += REQUIREMENT) no |= dullavane_requirement(LENT(tally), at, REQUIREMENT);
    hold(no == 0 && at == book + book_bytes, "a book that is taken");
}

static lengths all(uint64_t room) {
    lengths n = {WORDS, DULLAVANE_TALLY_WORDS, requirement_bytes, DULLAVANE_MEASURES, DULLAVANE_SUMS, DULLAVANE_FIGURES, tally[0], tally[0],
                 (uint64_t)DULLAVANE_ROW * tally[0], {0}, room};
    for (int i = 0; i < 5; i++) n.column[i] = tally[0] + 1;
    return n;
}

/* A call; what is not lent stays, whatever it answers, and so does everything where no byte is written. */
static uint32_t call(const uint32_t *of, lengths n) {
    static uint64_t before[WORDS + BEHIND];
    static columns columns_before;
    memcpy(before, cursor, sizeof before);
    columns_before = lent;
    memset(text, BEFORE, n.room + BEHIND);
    calls++;
    uint32_t no = dullavane_listing(cursor, n.words, of, n.tally, requirements, n.bytes, measures, n.measures, sums, n.sums, figures, n.figures, numbers,
                                    n.numbers, homes, n.homes, rows, n.rows, lent.performances, n.column[0], lent.factors, n.column[1], lent.payments, n.column[2],
                                    lent.used, n.column[3], lent.unused, n.column[4], text, n.room);
    uint64_t written = no ? 0 : cursor[DULLAVANE_WRITTEN];
    hold(written <= n.room, "more bytes than have room");
    hold(!memcmp(text + written, untouched, n.room + BEHIND - written), "a byte past what is written has changed");
    hold(!memcmp(before + WORDS, cursor + WORDS, sizeof before - WORDS * sizeof before[0]), "a word past the cursor has changed");
    if (written) {
        hold(text[written - 1] == '\n', "a piece that does not end with a line");
        return no;
    }
    hold(!memcmp(&columns_before, &lent, sizeof lent), "columns have changed, and no byte is written");
    if (no) hold(!memcmp(before, cursor, sizeof before), "the cursor has changed on a refusal");
    else hold(!memcmp(before + 1, cursor + 1, sizeof before - sizeof before[0]), "the cursor has changed, and nothing is left");
    return no;
}

/* The line that stands at a place of the listing, its line feed among it. */
static uint64_t line_at(uint64_t at) {
    const uint8_t *end = memchr(expected + at, '\n', expected_bytes - at);
    return end ? (uint64_t)(end - expected) + 1 - at : 0;
}

/* As many whole lines from there as have room. */
static uint64_t lines_at(uint64_t at, uint64_t room) {
    uint64_t fit = 0;
    while (at + fit < expected_bytes && line_at(at + fit) <= room - fit) fit += line_at(at + fit);
    return fit;
}

/* A piece of the listing from a place on, in a text of this length. */
static uint64_t piece(uint64_t at, uint64_t room) {
    uint64_t fit = lines_at(at, room);
    uint32_t no = call(tally, all(room));
    if (!fit && at < expected_bytes) {
        hold(no == NO_ROOM, "not 12, and the next line has no room");
        return at;
    }
    hold(no == 0, "refused, and the next line has room");
    hold(cursor[DULLAVANE_WRITTEN] == fit, "not as many lines as have room");
    hold(!memcmp(text, expected + at, fit), "not the lines of the listing");
    return at + fit;
}

static void start(void) {
    memset(cursor, 0, WORDS * sizeof cursor[0]);
    memset(&lent, 0x5a, sizeof lent);
}

/* Nothing is left, in whatever text. */
static void ended(void) {
    for (uint64_t room = 0; room < 200; room += 41) piece(expected_bytes, room);
}

static void by_length(uint64_t room) {
    start();
    for (uint64_t at = 0, next; at < expected_bytes; at = next) {
        next = piece(at, room);
        hold(next > at, "no piece");
    }
    ended();
}

/* Each line in a text that is as long as the line; before it in none, in one that is a byte shorter, and now and then in any that is shorter. */
static void by_lines(uint64_t lines) {
    start();
    uint64_t at = 0;
    for (uint64_t i = 0; at < expected_bytes && i < lines; i++) {
        uint64_t line = line_at(at);
        hold(piece(at, 0) == at && piece(at, line - 1) == at && piece(at, any(line)) == at, "a line without room");
        at = piece(at, line);
    }
    while (at < expected_bytes) at = piece(at, LONG_TEXT);
    ended();
}

/* Texts of any lengths; now and then the listing goes on from a copy of cursor and columns, over columns that another call has filled. */
static void by_chance(uint64_t most) {
    static uint64_t kept[WORDS];
    start();
    for (uint64_t at = 0; at < expected_bytes;) {
        if (any(64) == 0) {
            columns kept_columns = lent;
            memcpy(kept, cursor, sizeof kept);
            start();
            piece(0, any(1 << 12));
            memcpy(cursor, kept, sizeof kept);
            lent = kept_columns;
        }
        at = piece(at, any(16) ? any(most) : DULLAVANE_LINE_MOST);
    }
    ended();
}

/* ---- lists and tallies that are too short, or not at their turn */
static void refused(const uint32_t *of, lengths n, uint32_t number, const char *why) { hold(call(of, n) == number, why); }

static void short_lists(void) {
    lengths n = all(ROOM);
    for (n.words = 0; n.words < WORDS; n.words++) refused(tally, n, NO_ROOM, "fewer words than a cursor has");
    n = all(ROOM);
    for (n.tally = 0; n.tally < DULLAVANE_TALLY_WORDS; n.tally++) refused(tally, n, NO_ROOM, "fewer words than a tally has");
    n = all(ROOM);
    for (n.bytes = 0; n.bytes < requirement_bytes; n.bytes += 1 + any(23)) refused(tally, n, ENDS_EARLY, "bytes that end early");
}

/* Past the interval's line the requirement is answered: with lists too short it is refused there. */
static void short_kept(void) {
    start();
    uint64_t at = piece(0, line_at(0));
    (void)at;
    uint64_t here[WORDS];
    memcpy(here, cursor, sizeof here);
    memset(cursor, 0, sizeof here);
    cursor[DULLAVANE_STAGE] = DULLAVANE_STAGE_REQUIREMENT;
    lengths n = all(ROOM);
    n.measures--;
    refused(tally, n, NO_ROOM, "measures that are too short");
    n = all(ROOM), n.sums--;
    refused(tally, n, NO_ROOM, "sums that are too short");
    n = all(ROOM), n.figures--;
    refused(tally, n, NO_ROOM, "figures that are too short");
    for (int i = 0; i < 5; i++) {
        n = all(ROOM), n.column[i]--;
        refused(tally, n, NO_ROOM, "a column that is too short");
    }
    if (tally[0] > 0) {
        n = all(ROOM), n.homes--;
        refused(tally, n, NO_ROOM, "homes that are too short");
        n = all(ROOM), n.rows--;
        refused(tally, n, NO_ROOM, "rows that are too short");
    }
    n = all(DULLAVANE_LINE_MOST - 1);
    refused(tally, n, NO_ROOM, "a text in which not every line has room");
}

static void wrong_tallies(void) {
    uint32_t of[DULLAVANE_TALLY_WORDS];
    for (uint32_t records = 0; records < tally[2]; records++) {
        memcpy(of, tally, sizeof of);
        of[2] = records;
        refused(of, all(ROOM), WRONG_STATE, "a tally before the end of its book");
    }
    for (int i = 0; i < DULLAVANE_TALLY_WORDS; i++) {
        memcpy(of, tally, sizeof of);
        of[i] = UINT32_MAX;
        if (i != 7) refused(of, all(ROOM), WRONG_STATE, "a word of the tally that is too large for its field or over its limit");
    }
}

/* ---- cursors that no listing has: each word past its width is refused; others are answered, or refused with nothing written */
static const uint64_t over[WORDS] = {0, 4, 65536, 65536, 65536, 65536, 2, 256, 65536, 0, 0, 0, 0, 0, 0, 4};

static void made_up_cursors(int count) {
    for (int stage = 0; stage < 4; stage++) {
        for (int word = 1; word < WORDS; word++) {
            if (!over[word]) continue;
            for (int large = 0; large < 4; large++) {
                start();
                cursor[DULLAVANE_STAGE] = (uint64_t)stage;
                cursor[word] = large == 0 ? over[word] : large == 1 ? UINT64_MAX : large == 2 ? (uint64_t)1 << 32 : over[word] + any(over[word]);
                refused(tally, all(ROOM), WRONG_STATE, "a word of the cursor that is too large for its field");
            }
        }
    }
    for (int i = 0; i < count; i++) {
        start();
        for (int word = 0; word < WORDS; word++) {
            uint64_t wide = any(2) ? any(600) : any(2) ? any(UINT64_MAX) << any(64) : 0;
            cursor[word] = over[word] ? any(8) ? wide % over[word] : wide : wide;
        }
        if (any(2)) cursor[DULLAVANE_CURSOR_REQUIREMENT] = any(tally[1] + 2);
        if (any(2)) cursor[DULLAVANE_CURSOR_ROW] = any(tally[0] + 2);
        if (any(2)) cursor[DULLAVANE_MEMBERS_BEFORE] = any(cursor[DULLAVANE_CURSOR_ROW] % 1000 + 2);
        if (any(2)) cursor[DULLAVANE_CURSOR_SET] = 1 + any(31);
        for (size_t j = 0; j < sizeof lent / sizeof(int64_t); j++) ((int64_t *)&lent)[j] = (int64_t)(any(UINT64_MAX) << any(64));
        for (int again = 0; again < 3; again++) call(tally, all(any(4) ? any(700) : 1 << 16));
    }
}

int main(int count, char **words) {
    if (count != 4) return 2;
    book = file(words[1], &book_bytes);
    expected = file(words[2], &expected_bytes);
    text = malloc(LONG_TEXT + BEHIND);
    untouched = malloc(LONG_TEXT + BEHIND);
    if (!text || !untouched) return 2;
    memset(untouched, BEFORE, LONG_TEXT + BEHIND);
    state = strtoull(words[3], 0, 10);
    for (int i = WORDS; i < WORDS + BEHIND; i++) cursor[i] = 0x1111111111111111u * (uint64_t)(i - WORDS);
    take_book();
    static const uint64_t fixed[] = {DULLAVANE_LINE_MOST, DULLAVANE_LINE_MOST + 1, 333, 4096, LONG_TEXT};
    for (size_t i = 0; i < sizeof fixed / sizeof fixed[0]; i++) by_length(fixed[i]);
    uint64_t longest = 0;
    for (uint64_t at = 0; at < expected_bytes; at += line_at(at)) longest = line_at(at) > longest ? line_at(at) : longest;
    hold(longest <= DULLAVANE_LINE_MOST, "a line that is too long");
    if (longest < DULLAVANE_LINE_MOST) by_length(DULLAVANE_LINE_MOST - 1);
    by_length(longest);
    by_lines(2000);
    by_chance(200);
    by_chance(2000);
    short_lists();
    short_kept();
    wrong_tallies();
    made_up_cursors(400);
    printf("%llu\n", (unsigned long long)calls);
    free(book);
    free(expected);
    free(text);
    free(untouched);
    return 0;
}
