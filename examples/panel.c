/* panel: the books that the arguments name, on a display of four lines of 20; keys on standard input, a byte each, as `watch` takes them: n next, p previous,
   h home, r and R the next and the previous requirement, b the next book, q the end. After each of them four lines go to standard output: the same bytes as
   `watch` prints. Written as firmware would be: no heap, every list of a fixed length. What a box has from elsewhere stands in four functions at the end,
   `begin`, `receive`, `next_key` and `display`, over open, read, close and write, which are declared here so that a compiler with no C library builds this
   too; a box puts its radio, its keys and its display in their place.

   While a book is on show the next one is taken: there are two sets of kept lists, and a record or a few go into the other set between two keys. The set on
   show is not touched by that, so that every key is answered at once, with one call of dullavane_panel_press. `b` takes what is left of the next book, and
   the sets change places. */
#include "dullavane.h"
#include "dullavane_panel.h"

int open(const char *name, int how, ...);
long read(int file, void *to, unsigned long most);
long write(int file, const void *from, unsigned long bytes);
int close(int file);

/* How many records of the next book are taken between two keys. */
#ifndef BETWEEN
#define BETWEEN 3
#endif

enum { UNITS = DULLAVANE_MOST_UNITS, MEMBERS = UNITS + 1, REQUIREMENT = DULLAVANE_REQUIREMENT_SIZE };
enum { LINES = DULLAVANE_PANEL_LINES, WIDTH = DULLAVANE_PANEL_PLACES };

/* A refusal: the book ends before its record does. A book that cannot be opened or read is shown as one that has no byte. */
enum { ENDS_EARLY = 1 };

/* All that is kept of one book, 44,056 bytes, and how far it is: opened once its table of contents is taken, ended when it is taken whole or refused. The
   requirements' bytes are kept until another book comes: each is handed in again for its answer, and with every key. */
typedef struct {
    uint32_t tally[DULLAVANE_TALLY_WORDS];
    int32_t measures[DULLAVANE_MEASURES];
    int64_t sums[DULLAVANE_SUMS], figures[DULLAVANE_FIGURES];
    uint16_t numbers[UNITS];
    uint8_t homes[UNITS];
    int64_t rows[DULLAVANE_ROW * UNITS];
    uint16_t groups[UNITS];
    uint8_t requirements[DULLAVANE_MOST_REQUIREMENTS * REQUIREMENT + 1];
    int file, opened, ended;
    uint32_t refusal;
} Book;

static Book books[2];

/* Of the requirement on show alone: its columns and its reply, which one dullavane_answer fills for all of its pages. */
static int64_t performances[MEMBERS], factors[MEMBERS], payments[MEMBERS], used[MEMBERS], unused[MEMBERS];
static uint64_t reply[DULLAVANE_REPLY_WORDS];

/* A record's bytes and a group's deviations, while it is taken. */
static uint8_t record[DULLAVANE_UNIT_SIZE];
static int64_t deviations[DULLAVANE_POINTS];

/* The page record, which the library moves: the book's number, the requirement's, the page. */
static uint32_t page[DULLAVANE_PAGE_WORDS];

#define LENT(list) list, sizeof(list) / sizeof(list[0])

static void begin(Book *b, const char *name);
static int receive(Book *b, uint8_t *to, uint64_t want, uint64_t *got);
static int next_key(void);
static int display(const uint8_t *text);

static uint32_t all_records(const Book *b) { return 1 + DULLAVANE_REGIONS + b->tally[0] + b->tally[1]; }

/* Where the next record is read to, and how long it is. Requirements are kept, and the last one comes with a byte more, if there is one: then bytes follow. */
static uint8_t *place_of(Book *b, uint64_t *want) {
    uint32_t taken = b->tally[2], first = 1 + DULLAVANE_REGIONS + b->tally[0];
    if (b->opened && taken >= first) {
        *want = REQUIREMENT + (taken + 1 == all_records(b));
        return b->requirements + REQUIREMENT * (taken - first);
    }
    if (!b->opened) *want = DULLAVANE_CONTENTS_SIZE;
    else if (taken == 0) *want = DULLAVANE_SETTINGS_SIZE;
    else *want = taken <= DULLAVANE_REGIONS ? DULLAVANE_FREQUENCY_SIZE : DULLAVANE_UNIT_SIZE;
    return record;
}

/* Hands the part to the call whose turn it is. */
static uint64_t take(Book *b, const uint8_t *part, uint64_t bytes) {
    uint32_t taken = b->tally[2];
    if (!b->opened) return dullavane_contents(part, bytes, LENT(b->tally));
    if (taken == 0) return dullavane_settings(LENT(b->tally), part, bytes);
    if (taken <= DULLAVANE_REGIONS) return dullavane_frequency(LENT(b->tally), part, bytes, LENT(b->measures), LENT(b->sums), LENT(b->figures));
    if (taken <= DULLAVANE_REGIONS + b->tally[0])
        return dullavane_unit(LENT(b->tally), part, bytes, LENT(b->measures), LENT(b->sums), LENT(b->figures), LENT(b->numbers), LENT(b->homes), LENT(b->rows),
                              LENT(b->groups), LENT(deviations));
    return dullavane_requirement(LENT(b->tally), part, bytes);
}

/* One record more of a book that has not ended. */
static void take_record(Book *b) {
    uint64_t want, got;
    uint8_t *to = place_of(b, &want);
    b->refusal = receive(b, to, want, &got) ? DULLAVANE_REFUSAL(take(b, to, got)) : ENDS_EARLY;
    b->ended = b->refusal || (b->opened && b->tally[2] == all_records(b));
    b->opened = 1;
    if (b->ended) close(b->file);
}

/* Between two keys: a few records. */
static void take_some(Book *b) {
    for (int i = 0; i < BETWEEN && !b->ended; i++) take_record(b);
}

static void take_rest(Book *b) {
    while (!b->ended) take_record(b);
}

/* A requirement comes on show: its answer, once. */
static uint32_t answer(const Book *b, const uint8_t *part) {
    return dullavane_answer(LENT(b->tally), part, REQUIREMENT, LENT(b->measures), LENT(b->sums), LENT(b->figures), LENT(b->homes), LENT(b->rows),
                            LENT(performances), LENT(factors), LENT(payments), LENT(used), LENT(unused), LENT(reply));
}

/* Where the panel stands: the book on show, by the argument that names it, which is its number for the page record too; and its requirement on show, from 0.
   The two sets take turns. */
static uint32_t number, requirement, arguments;
static char **names;

static Book *on_show(void) { return &books[number % 2]; }
static Book *coming(void) { return &books[(number + 1) % 2]; }
static int is_more(void) { return number + 1 < arguments; }

static const uint8_t *part(void) { return on_show()->requirements + REQUIREMENT * requirement; }

static void show_requirement(uint32_t which) {
    Book *b = on_show();
    requirement = which;
    if (!b->refusal) b->refusal = answer(b, part());
}

static void show_next_book(void) {
    take_rest(coming());
    number++;
    if (is_more()) begin(coming(), names[number + 1]);
    show_requirement(0);
}

/* Another requirement or book; at its end each stays put. A refused book has no requirement to go to. */
static void go(int byte) {
    uint32_t last = on_show()->refusal ? 0 : on_show()->tally[1] - 1;
    if (byte == 'r' && requirement < last) show_requirement(requirement + 1);
    if (byte == 'R' && requirement > 0) show_requirement(requirement - 1);
    if (byte == 'b' && is_more()) show_next_book();
}

/* A key press: it moves the page and draws it. A refused book has its phrase. Another requirement or book goes home by itself. */
static int press(uint32_t key) {
    const Book *b = on_show();
    uint8_t text[DULLAVANE_PANEL_BYTES];
    uint32_t no = b->refusal;
    if (!no)
        no = dullavane_panel_press(LENT(page), key, number, LENT(b->tally), part(), REQUIREMENT, LENT(b->figures), LENT(b->numbers), LENT(b->homes),
                                   LENT(payments), LENT(used), LENT(unused), LENT(reply), LENT(text));
    if (no) dullavane_panel_phrase(no, LENT(text));
    return display(text);
}

static uint32_t key_of(int byte) {
    if (byte == 'n') return DULLAVANE_KEY_NEXT;
    if (byte == 'p') return DULLAVANE_KEY_PREVIOUS;
    return byte == 'h' ? DULLAVANE_KEY_HOME : DULLAVANE_KEY_SHOW;
}

static int is_key(int byte) { return key_of(byte) != DULLAVANE_KEY_SHOW || byte == 'r' || byte == 'R' || byte == 'b'; }

int main(int count, char **words) {
    int shown, byte = 0;
    arguments = (uint32_t)count;
    names = words;
    if (!is_more()) return 1;
    begin(coming(), names[1]);
    show_next_book();
    for (shown = press(DULLAVANE_KEY_SHOW); shown && byte >= 0 && byte != 'q';) {
        if (is_more()) take_some(coming());
        byte = next_key();
        if (!is_key(byte)) continue;
        go(byte);
        shown = press(key_of(byte));
    }
    return 0;
}

/* A book is announced: its bytes will come. */
static void begin(Book *b, const char *name) {
    b->file = open(name, 0);
    b->opened = 0;
    b->ended = b->file < 0;
    b->refusal = b->file < 0 ? ENDS_EARLY : 0;
}

/* As many of the next bytes as there are; 0 where they cannot be had. */
static int receive(Book *b, uint8_t *to, uint64_t want, uint64_t *got) {
    long n = 1;
    for (*got = 0; *got < want && n > 0; *got += n > 0 ? (uint64_t)n : 0) n = read(b->file, to + *got, want - *got);
    return n >= 0;
}

/* The next byte, or below 0 at the end. */
static int next_key(void) {
    uint8_t byte;
    return read(0, &byte, 1) == 1 ? byte : -1;
}

/* Four lines at once, each with its line feed. */
static int display(const uint8_t *text) {
    uint8_t lines[LINES * (WIDTH + 1)];
    for (int i = 0; i < LINES * (WIDTH + 1); i++) lines[i] = i % (WIDTH + 1) == WIDTH ? '\n' : text[i / (WIDTH + 1) * WIDTH + i % (WIDTH + 1)];
    return write(1, lines, sizeof lines) == (long)sizeof lines;
}
