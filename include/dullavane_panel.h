/* dullavane_panel.h: the four-line display of the interval calculator, for firmware. A second library, libdullavane_panel.a, beside libdullavane.a; both
   link into one program, in either order. What dullavane.h says of lists, refusals, safety and interrupts holds here too: the library keeps nothing,
   allocates nothing, blocks on nothing, and every call ends.

   A PAGE is four lines of 20 characters, 80 bytes of ASCII, filled with spaces; there is no line feed and no byte 0. Bytes of the text past the 80th stay. A
   requirement has a first page and then one page a member, the residual last, so that its last page's number is how many members it has:
       req 1 raise         unit 7       default
       RCR             7500PAY              -30
       POOL             100USED            -100
       COST            1000IDLE            -222
   RCR, pool and cost; payment, used and unused in cents, charges negative. RCR is in 75ths of a hundredth of a MW: divide by 7,500 for MW. A number stands
   at the right end of 16 places; with more characters, its sign included (from 10,000,000,000,000,000 on, and from -1,000,000,000,000,000 down), 16 hashes
   stand there. A member goes by its unit number, a group by its primary's. Why a default stands in has no place.

   THE PAGE RECORD is three words that the caller keeps: which book, which requirement (its number, bytes 0 and 1 of its record, not its index), which page
   (0 the first; after a press the one that is drawn, and page[DULLAVANE_PAGE_NUMBER] == reply[DULLAVANE_MEMBERS] is the last). Lend it to every press. BOOK
   is a number that the caller changes with every book taken, also for a book that is sent again: it is not the interval number. Where book or requirement
   are not the record's, the page goes home to the first; a page past the last acts as the last; then the key: next and previous stay put at the ends. Three
   words of 0 are a good start.

   A KEY PRESS, dullavane_panel_press, moves the page and draws it in one call, from what the calls of dullavane.h have kept of the book (tally, figures,
   numbers, homes), the requirement's 24 bytes, and what dullavane_answer left for that requirement: payments, used, unused and its reply. Nothing is worked
   out again. It takes the reply for this requirement's as long as it tells as many members as the requirement has: answer a requirement before it comes on
   show, draw its first page with DULLAVANE_KEY_HOME (NEXT would draw the first member's), and keep the columns as long as it is. To show one book while the
   next one is taken, keep two sets of the kept lists (dullavane.h, LISTS TO LEND); examples/panel.c and examples/desk.c do. On a refusal page and text are as
   they were.

   What is proved of each call, for any numbers, words and lists whatever: its return value, the page's words and every byte of the text after it. What is
   outside the proof: this header, the caller, and the compiler's back end. */
#ifndef DULLAVANE_PANEL_H
#define DULLAVANE_PANEL_H

#include "dullavane.h"

#ifdef __cplusplus
extern "C" {
#endif

enum { DULLAVANE_PANEL_BYTES = 80, DULLAVANE_PANEL_LINES = 4, DULLAVANE_PANEL_PLACES = 20 };
DULLAVANE_ASSERT(DULLAVANE_PANEL_BYTES == DULLAVANE_PANEL_LINES * DULLAVANE_PANEL_PLACES, "four lines of 20");

/* The words of the page record. */
enum { DULLAVANE_PAGE_BOOK, DULLAVANE_PAGE_REQUIREMENT, DULLAVANE_PAGE_NUMBER, DULLAVANE_PAGE_WORDS };
DULLAVANE_ASSERT(DULLAVANE_PAGE_WORDS == 3, "a page record is three words");

/* The keys; DULLAVANE_KEY_SHOW is none, and draws again. */
enum { DULLAVANE_KEY_SHOW, DULLAVANE_KEY_NEXT, DULLAVANE_KEY_PREVIOUS, DULLAVANE_KEY_HOME };

/* A key press over a taken book: moves the page and draws it. Part is the requirement's 24 bytes; reply is the 8 words that dullavane_answer left. Figures
   have to be 50 long, numbers and homes tally[0], payments, used and unused tally[0] + 1 each, the page 3 words, the text 80 bytes. Refuses 12 (the tally's
   words), 11 (the tally; before the last unit; a key over 3), 12 (the words of page or reply), 12 (a list, or the text), 11 (figures of another interval; a
   region's reliability that is not 0 or 1; a home over 10), 1 and 10 (the requirement's record), 11 (the reply tells another number of members than the
   requirement has, or a standing that there is not). */
uint32_t dullavane_panel_press(uint32_t *page, uint64_t page_words, uint32_t key, uint32_t book, const uint32_t *tally, uint64_t tally_words,
                               const uint8_t *part, uint64_t part_bytes, const int64_t *figures, uint64_t figures_length,
                               const uint16_t *numbers, uint64_t numbers_length, const uint8_t *homes, uint64_t homes_length,
                               const int64_t *payments, uint64_t payments_length, const int64_t *used, uint64_t used_length,
                               const int64_t *unused, uint64_t unused_length, const uint64_t *reply, uint64_t reply_words,
                               uint8_t *text, uint64_t text_bytes);

/* The same step over the page's words alone, for a requirement of so many members: nothing is drawn. Requirement is its number. Refuses 12 (fewer than three
   words), 11 (a key over 3); the words are then as they were. */
uint32_t dullavane_panel_step(uint32_t *page, uint64_t page_words, uint32_t key, uint32_t book, uint32_t requirement, uint32_t members);

/* A requirement's first page from its numbers: its number, its direction (0 raise, 1 lower), and three figures, any signed 64 bits. Refuses 11 (a number
   over 65,535, a direction over 1), 12 (a text under 80 bytes). */
uint32_t dullavane_panel_first(uint32_t number, uint32_t direction, int64_t rcr, int64_t pool, int64_t cost, uint8_t *text, uint64_t text_bytes);

/* A member's page from its numbers: residual is 0 for a unit or a group by its number, 1 for the residual, whose number is not looked at; standing as the
   words of a member have it, 0 live, 1 to 3 default. Refuses 11 (residual over 1, a unit's number over 65,535, a standing over 3), 12 (a text under 80
   bytes). */
uint32_t dullavane_panel_member(uint32_t residual, uint32_t number, uint32_t standing, int64_t payment, int64_t used, int64_t unused,
                                uint8_t *text, uint64_t text_bytes);

/* The page of a refusal: its phrase on line one, the other three are blank. A number that no refusal has, 0 too, is `unknown`. Refuses 12 (a text under 80
   bytes). */
uint32_t dullavane_panel_phrase(uint32_t refusal, uint8_t *text, uint64_t text_bytes);

#ifdef __cplusplus
}
#endif

#endif
