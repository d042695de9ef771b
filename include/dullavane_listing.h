/* dullavane_listing.h: the listing of a taken book as text, piece by piece, for firmware. A library of its own, libdullavane_listing.a, beside libdullavane.a;
   both link into one program, in either order. What dullavane.h says of lists, refusals, safety and interrupts holds here too: the library keeps nothing,
   allocates nothing, blocks on nothing, and every call ends.

   THE LISTING is the text that the program settle prints of a book: the interval's line, then for each requirement its line, that of each of its members and
   the residual's. Every line ends with a line feed; there is no byte 0. No line is longer than DULLAVANE_LINE_MOST bytes, its line feed among them. A book of
   512 units and 32 requirements has a listing of up to 16,449 lines, so it is handed over in PIECES: each call writes as many whole lines as the text has
   room for.

   THE LOOP. Take the book with the calls of dullavane.h to its end, keep the requirements' records in one list, one behind the other, and then:

       uint64_t cursor[DULLAVANE_CURSOR_WORDS] = {0};
       uint32_t no;
       while ((no = dullavane_listing(cursor, DULLAVANE_CURSOR_WORDS, tally, .., text, sizeof text)) == 0 && cursor[DULLAVANE_WRITTEN] != 0)
           send(text, cursor[DULLAVANE_WRITTEN]);

   A text of DULLAVANE_LINE_MOST bytes is always long enough; a longer one takes more lines a call. A call that returns 0 with DULLAVANE_WRITTEN 0 says that
   nothing is left: the pieces, one behind the other, are then the whole listing. It may be asked again, and says so again.

   THE CURSOR is sixteen words that the caller keeps: sixteen zeros at the start, and then as the call before left them. Words that a stage does not use are 0.
       [0]  bytes that the last call wrote; not read        [5]  the requirement's number
       [1]  stage: 0 the interval's line, 1 a requirement   [6]  its direction, 0 raise, 1 lower
            that is yet to be answered, 2 the line of one    [7]  its region set
            that is answered, 3 its members                  [8] to [15]  its answer's words, in the order of
       [2]  requirement, from 0                                   dullavane_answer's reply: members, RCR, pool, used
       [3]  row of the roster                                     and unused pool, unplaced of used and of unused, and
       [4]  members that stand before that row                    the residual's standing
   BETWEEN CALLS THE COLUMNS BELONG TO THE CURSOR: performances, factors, payments, used and unused hold the answer whose members come next, so that no
   requirement is worked out twice. Leave them alone until the listing has ended, or lend the call columns of its own; dullavane_answer over the same columns
   would mix up two answers. To stop and go on later, keep cursor and columns together. What the calls of dullavane.h have kept of the book (tally, measures,
   sums, figures, numbers, homes, rows) and the requirements' records have to be there for every call; they are only read.

   A REFUSAL leaves cursor, columns and text as they were, so that the same call can be made again. 12: a list is shorter than is asked for below, or not even
   the next line has room; then lend DULLAVANE_LINE_MOST bytes. 11: the tally does not stand at the end of its book, a lent number is out of range, or the
   cursor is none that a listing of this book comes to. Words that no call has left are safe: they are answered, or refused.

   What is proved of the call, for any numbers, words and lists whatever: its return value, the cursor's words, every number of the columns and every byte of
   the text after it; and for every book that is taken, that the pieces from sixteen zeros on, joined, are the front of its listing, and the whole of it once
   a call says that nothing is left. What is outside the proof: this header, the caller, and the compiler's back end. */
#ifndef DULLAVANE_LISTING_H
#define DULLAVANE_LISTING_H

#include "dullavane.h"

#ifdef __cplusplus
extern "C" {
#endif

/* The longest line, its line feed among it. */
enum { DULLAVANE_LINE_MOST = 165 };

/* The words of a cursor; an answer's words stand from DULLAVANE_CURSOR_ANSWER on. */
enum {
    DULLAVANE_WRITTEN,
    DULLAVANE_STAGE,
    DULLAVANE_CURSOR_REQUIREMENT,
    DULLAVANE_CURSOR_ROW,
    DULLAVANE_MEMBERS_BEFORE,
    DULLAVANE_CURSOR_NUMBER,
    DULLAVANE_CURSOR_DIRECTION,
    DULLAVANE_CURSOR_SET,
    DULLAVANE_CURSOR_ANSWER,
    DULLAVANE_CURSOR_WORDS = DULLAVANE_CURSOR_ANSWER + DULLAVANE_REPLY_WORDS
};
DULLAVANE_ASSERT(DULLAVANE_CURSOR_WORDS == 16, "a cursor is sixteen words");

/* The stages. */
enum { DULLAVANE_STAGE_INTERVAL, DULLAVANE_STAGE_REQUIREMENT, DULLAVANE_STAGE_ANSWERED, DULLAVANE_STAGE_MEMBERS };

/* Writes the next piece of a taken book's listing into the text: as many whole lines as have room, and bytes past them stay. Cursor has DULLAVANE_CURSOR_WORDS
   words, bytes are the tally[1] records of 24 bytes of the requirements, one behind the other; measures, sums, figures, numbers, homes and rows as the calls
   have kept them, each column tally[0] + 1 numbers. Returns 0, with how many bytes were written in cursor[DULLAVANE_WRITTEN], 0 where nothing is left: then the
   other words stay. Refuses 12 (the tally's words), 11 (a word of the tally that is too large for its field; before the last unit), 12 (fewer than sixteen
   words of a cursor), 11 (a stage or a standing over 3, a direction over 1, a set over 255, requirement, row, members before, number or members over 65,535),
   11 (the tally is not at the end of its book), 1 (the bytes end before the last requirement), 12 (a requirement is yet to be answered and the text is shorter
   than DULLAVANE_LINE_MOST), 11 (no such requirement or row), what dullavane_answer and dullavane_member refuse, and 12 where the next line has no room. */
uint32_t dullavane_listing(uint64_t *cursor, uint64_t cursor_words, const uint32_t *tally, uint64_t tally_words, const uint8_t *bytes, uint64_t bytes_length,
                           const int32_t *measures, uint64_t measures_length, const int64_t *sums, uint64_t sums_length,
                           const int64_t *figures, uint64_t figures_length, const uint16_t *numbers, uint64_t numbers_length,
                           const uint8_t *homes, uint64_t homes_length, const int64_t *rows, uint64_t rows_length,
                           int64_t *performances, uint64_t performances_length, int64_t *factors, uint64_t factors_length,
                           int64_t *payments, uint64_t payments_length, int64_t *used, uint64_t used_length,
                           int64_t *unused, uint64_t unused_length, uint8_t *text, uint64_t text_bytes);

#ifdef __cplusplus
}
#endif

#endif
