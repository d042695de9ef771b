/* desk: interval books on a line, one behind the other; shows the last whole book, page by page, while the next one is taken. Standard input is the line, and
   each book is as long as its table of contents says: exactly the bytes of the record whose turn it is are read and handed to its call, the last requirement's
   24 too, so that no byte of the next book is asked for. Written as firmware would be: no heap, every list of a fixed length. What a box has from elsewhere is
   read and write, which are declared here so that a compiler with no C library builds this too.

   After every record taken, the table of contents too, the next page of the book on show goes to standard output, four lines of 20 characters: the first
   requirement's first page, then a page a member, the residual last, then the second requirement's likewise; behind the last page the first one comes again. A
   book that has become whole comes on show at once, from its first page. Where the line ends between two books, all pages of the book on show are printed once
   more. Where a book is refused, or the line ends inside it, the refusal's page and a line `refused NUMBER PLACE T` end the run.

   list                                                                        whose, and how long
   tally, measures, sums, figures, numbers, homes, rows, requirements' bytes   a book's: from its contents until the next book is whole; two sets, which change
                                                                               places when the book that is taken is whole
   groups, deviations                                                          the book's that is taken, from its first unit to its last; once
   columns, reply                                                              the book's on show, from a requirement's first page to its last; once, and
                                                                               lent to no call that takes a record
   page record                                                                 the display's, always
   record, text, screen                                                        one record, one page

   All memory is static, 108,784 bytes: two sets of 43,004 and a word, 1,624 while units are taken, 20,584 of an answer, 372 of a record, 164 of a page drawn
   and printed, and 24 of the display's words. No list is cleared but by being static: three zeros of the page record are all that a call asks for. */
#include "dullavane.h"
#include "dullavane_panel.h"

long read(int file, void *bytes, unsigned long length);
long write(int file, const void *bytes, unsigned long length);

#define LENT DULLAVANE_LENT

enum { THE_LINE = 0, THE_DISPLAY = 1, SCREEN_BYTES = DULLAVANE_PANEL_BYTES + DULLAVANE_PANEL_LINES };

/* What is kept of a book. Opened is 0 until its table of contents is taken. */
typedef struct {
    int64_t sums[DULLAVANE_SUMS], figures[DULLAVANE_FIGURES], rows[DULLAVANE_ROWS];
    uint32_t tally[DULLAVANE_TALLY_WORDS];
    int32_t measures[DULLAVANE_MEASURES];
    uint16_t numbers[DULLAVANE_NUMBERS];
    uint8_t homes[DULLAVANE_HOMES];
    uint8_t requirements[DULLAVANE_REQUIREMENTS_BYTES];
    uint32_t opened;
} Kept;

/* The answer to the requirement on show. */
typedef struct {
    int64_t performances[DULLAVANE_COLUMN], factors[DULLAVANE_COLUMN], payments[DULLAVANE_COLUMN], used[DULLAVANE_COLUMN], unused[DULLAVANE_COLUMN];
    uint64_t reply[DULLAVANE_REPLY_WORDS];
} Answer;

/* All memory of the program. Taking says which of the sets the book that comes is taken into; the other one's book is on show, once there is one. */
typedef struct {
    Kept sets[2];
    Answer answer;
    int64_t deviations[DULLAVANE_DEVIATIONS];
    uint16_t groups[DULLAVANE_GROUPS];
    uint32_t taking;
    uint32_t books;       /* books that came on show, 0 while there is none; the number by which a press tells them apart */
    uint32_t requirement; /* the requirement on show, from 0 */
    uint32_t page[DULLAVANE_PAGE_WORDS];
    uint8_t record[DULLAVANE_RECORD_MOST];
    uint8_t text[DULLAVANE_PANEL_BYTES], screen[SCREEN_BYTES];
} Desk;

DULLAVANE_ASSERT(sizeof(Kept) == DULLAVANE_KEPT_BYTES + 4, "a set has one word more than is kept");
DULLAVANE_ASSERT(sizeof(Answer) == DULLAVANE_ANSWER_BYTES, "an answer has its lists alone");
DULLAVANE_ASSERT(sizeof(Desk) == 108784 && sizeof(Desk) == DULLAVANE_TWO_BOOKS_BYTES + 568, "all memory is as said");

static Desk desk;

/* ---- the line and the display ---- */

/* Reads that many bytes, or as many as come before the line ends; a line that cannot be read has ended. */
static uint64_t read_whole(uint8_t *bytes, uint64_t length) {
    uint64_t done = 0;
    while (done < length) {
        long came = read(THE_LINE, bytes + done, (unsigned long)(length - done));
        if (came <= 0) break;
        done += (uint64_t)came;
    }
    return done;
}

/* Writes all bytes. Returns 1, or 0 where the display takes no more. */
static int write_whole(const uint8_t *bytes, uint64_t length) {
    uint64_t done = 0;
    while (done < length) {
        long went = write(THE_DISPLAY, bytes + done, (unsigned long)(length - done));
        if (went <= 0) return 0;
        done += (uint64_t)went;
    }
    return 1;
}

/* Prints the page that was drawn, a line feed behind each of its lines. */
static int print_page(void) {
    uint32_t at = 0;
    for (uint32_t i = 0; i < DULLAVANE_PANEL_BYTES; i++) {
        desk.screen[at++] = desk.text[i];
        if ((i + 1) % DULLAVANE_PANEL_PLACES == 0) desk.screen[at++] = '\n';
    }
    return write_whole(desk.screen, SCREEN_BYTES);
}

/* ---- taking a book ---- */

static int is_whole(const Kept *b) { return b->opened && b->tally[DULLAVANE_TALLY_RECORDS] == DULLAVANE_BOOK_END(b->tally); }

/* How many bytes the record has whose turn it is. The last requirement has no byte more than the others: what follows it on the line is the next book's. */
static uint64_t record_size(const Kept *b) {
    if (!b->opened) return DULLAVANE_CONTENTS_SIZE;
    uint32_t taken = b->tally[DULLAVANE_TALLY_RECORDS];
    if (taken == 0) return DULLAVANE_SETTINGS_SIZE;
    if (taken < DULLAVANE_BEFORE_UNITS) return DULLAVANE_FREQUENCY_SIZE;
    if (taken < DULLAVANE_UNITS_END(b->tally)) return DULLAVANE_UNIT_SIZE;
    return DULLAVANE_REQUIREMENT_SIZE;
}

static uint64_t take_contents(Kept *b, const uint8_t *part, uint64_t bytes) {
    uint64_t no = dullavane_contents(part, bytes, LENT(b->tally));
    b->opened = no == 0;
    return no;
}

/* Takes a requirement and keeps its bytes, which its answers and pages ask for. */
static uint64_t take_requirement(Kept *b, const uint8_t *part, uint64_t bytes) {
    uint32_t place = b->tally[DULLAVANE_TALLY_RECORDS] - DULLAVANE_UNITS_END(b->tally);
    uint64_t no = dullavane_requirement(LENT(b->tally), part, bytes);
    if (no) return no;
    for (uint32_t i = 0; i < DULLAVANE_REQUIREMENT_SIZE; i++) b->requirements[DULLAVANE_REQUIREMENT_SIZE * place + i] = part[i];
    return 0;
}

/* Hands the record to the call whose turn it is: the whole record, or the bytes that came before the line ended. Returns 0, or number, place and t. */
static uint64_t take_record(Kept *b, const uint8_t *part, uint64_t bytes) {
    if (!b->opened) return take_contents(b, part, bytes);
    uint32_t taken = b->tally[DULLAVANE_TALLY_RECORDS];
    if (taken == 0) return dullavane_settings(LENT(b->tally), part, bytes);
    if (taken < DULLAVANE_BEFORE_UNITS) return dullavane_frequency(LENT(b->tally), part, bytes, LENT(b->measures), LENT(b->sums), LENT(b->figures));
    if (taken < DULLAVANE_UNITS_END(b->tally))
        return dullavane_unit(LENT(b->tally), part, bytes, LENT(b->measures), LENT(b->sums), LENT(b->figures), LENT(b->numbers), LENT(b->homes), LENT(b->rows),
                              LENT(desk.groups), LENT(desk.deviations));
    return take_requirement(b, part, bytes);
}

/* ---- the book on show ---- */

static const Kept *on_show(void) { return &desk.sets[1 - desk.taking]; }

static const uint8_t *requirement_on_show(void) { return on_show()->requirements + DULLAVANE_REQUIREMENT_SIZE * desk.requirement; }

/* Fills columns and reply for the requirement on show. */
static uint32_t answer_requirement(void) {
    const Kept *b = on_show();
    Answer *a = &desk.answer;
    return dullavane_answer(LENT(b->tally), requirement_on_show(), DULLAVANE_REQUIREMENT_SIZE, LENT(b->measures), LENT(b->sums), LENT(b->figures),
                            LENT(b->homes), LENT(b->rows), LENT(a->performances), LENT(a->factors), LENT(a->payments), LENT(a->used), LENT(a->unused),
                            LENT(a->reply));
}

static uint32_t press_key(uint32_t key) {
    const Kept *b = on_show();
    const Answer *a = &desk.answer;
    return dullavane_panel_press(LENT(desk.page), key, desk.books, LENT(b->tally), requirement_on_show(), DULLAVANE_REQUIREMENT_SIZE, LENT(b->figures),
                                 LENT(b->numbers), LENT(b->homes), LENT(a->payments), LENT(a->used), LENT(a->unused), LENT(a->reply), LENT(desk.text));
}

/* Brings a requirement on show, from 0, and draws its first page. */
static uint32_t draw_first_page(uint32_t requirement) {
    desk.requirement = requirement;
    uint32_t no = answer_requirement();
    if (no) return no;
    return press_key(DULLAVANE_KEY_HOME);
}

/* The last page's number is how many members the requirement has: page 0 is no member's. */
static int is_last_page(void) { return desk.page[DULLAVANE_PAGE_NUMBER] == desk.answer.reply[DULLAVANE_MEMBERS]; }

static int is_last_requirement(void) { return desk.requirement + 1 == on_show()->tally[DULLAVANE_TALLY_REQUIREMENTS]; }

static uint32_t draw_next_page(void) {
    if (!is_last_page()) return press_key(DULLAVANE_KEY_NEXT);
    return draw_first_page(is_last_requirement() ? 0 : desk.requirement + 1);
}

/* The book that was taken is whole and comes on show; the set of the one before is free for the next book. */
static void change_places(void) {
    desk.taking = 1 - desk.taking;
    desk.sets[desk.taking].opened = 0;
    desk.books++;
}

/* ---- the ends ---- */

static uint8_t *put_word(uint8_t *to, const char *word) {
    while (*word) *to++ = (uint8_t)*word++;
    return to;
}

static uint8_t *put_number(uint8_t *to, uint32_t number) {
    uint32_t power = 1;
    while (number / power >= 10) power *= 10;
    for (; power > 0; power /= 10) *to++ = (uint8_t)('0' + number / power % 10);
    return to;
}

/* Prints the page of a refusal, and behind it the line with number, place and t, which has 31 characters at most. */
static int print_refusal(uint64_t refusal) {
    uint32_t no = dullavane_panel_phrase(DULLAVANE_REFUSAL(refusal), LENT(desk.text));
    if (no || !print_page()) return 0;
    uint8_t *to = put_number(put_word(desk.screen, "refused "), DULLAVANE_REFUSAL(refusal));
    to = put_number(put_word(to, " "), DULLAVANE_PLACE(refusal));
    to = put_number(put_word(to, " "), DULLAVANE_T(refusal));
    to = put_word(to, "\n");
    return write_whole(desk.screen, (uint64_t)(to - desk.screen));
}

/* Prints all pages of the book on show, if there is one, from its first to its last. */
static int print_all_pages(void) {
    if (desk.books == 0) return 1;
    uint32_t no = draw_first_page(0);
    while (no == 0) {
        if (!print_page()) return 0;
        if (is_last_page() && is_last_requirement()) return 1;
        no = draw_next_page();
    }
    return print_refusal(no);
}

/* Behind a record that was taken: draws the next page of the book on show, if there is one. */
static uint32_t draw_behind_record(void) {
    if (is_whole(&desk.sets[desk.taking])) {
        change_places();
        return draw_first_page(0);
    }
    if (desk.books == 0) return 0;
    return draw_next_page();
}

int main(void) {
    for (;;) {
        Kept *taking = &desk.sets[desk.taking];
        uint64_t came = read_whole(desk.record, record_size(taking));
        if (came == 0 && !taking->opened) return print_all_pages() ? 0 : 1;
        uint64_t refusal = take_record(taking, desk.record, came);
        if (refusal == 0) refusal = draw_behind_record();
        if (refusal) return print_refusal(refusal) ? 0 : 1;
        if (desk.books != 0 && !print_page()) return 1;
    }
}
