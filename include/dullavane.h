/* dullavane.h: the interval calculator, for firmware.

   Every five minutes a box is sent one interval book. The firmware hands its records to the calls below one by one, the units also by runs, in the book's
   order, and then asks for the answer to each regulation requirement: what every plant did for grid frequency, and what it is credited or charged, to the cent.
   The library keeps nothing between calls, allocates nothing and blocks on nothing: all that it knows of a book stands in lists that the caller lends, and
   every call ends.

   A LIST is a pointer and the number of its elements (not bytes), one argument after the other. A list may be longer than is asked for; what
   stands past the numbers named here is neither read nor written. Two lists of one call must not overlap. A pointer is never null, not
   even with length 0, and is aligned to its element's size. Lengths are uint64_t on every processor, also on a 32-bit one.

   INTERRUPTS AND THREADS. The library has no variable of its own: a call works on what it is lent and on its stack alone. So calls on different lists may
   interrupt each other and run at the same time, the same function too. Two calls that share a list which one of them writes may not: let the first end. A list
   that both calls only read may be shared. A call that is broken off for good leaves the lists that it writes half written: begin that book again with
   dullavane_contents.

   A CALL returns 0, or a refusal (below). After a refusal everything lent is as it was, the tally too: the same call can be made again with other
   bytes, or the book given up. dullavane_units alone may have added records before the one that it refuses, and they stay added.

   WHERE. The six calls that take a book (dullavane_contents, _settings, _frequency, _unit, _units and _requirement), dullavane_trend and
   dullavane_report_read return 64 bits, by value: 0, or
       bits 0 to 31    DULLAVANE_REFUSAL   the refusal's number
       bits 32 to 47   DULLAVANE_PLACE     the place of the refused record in its body, from 1, or in a run
       bits 48 to 63   DULLAVANE_T         with 74 and 84 the refused point or reading, 1 to 75, with 18 the refused column of a report's row, 1 to 7;
                                           the first one where there are several
   What is not there is 0. The place is that of the record that was to be taken, also where no byte of it is left:
       the settings                                             1
       region r's frequency record                              r + 1
       the k-th unit, the k-th requirement                      k
       whatever dullavane_units refuses, 11 and 12 too          the place in the run, from 1: place - 1 records were added, which the tally counts
       1 for a run that is not a whole number of records        0: none was added
       11, and 12 for a tally of fewer than 8 words             0, but of dullavane_units
       whatever dullavane_contents refuses                      0
       whatever dullavane_trend, dullavane_report_read refuse   0: they read a record or a row alone, which stands in no body
   dullavane_write, dullavane_report_row and dullavane_report return 64 bits too: number and length, as each says itself. The other calls take no record of a
   body and return the number alone, in 32 bits, which the same macros read.

   THE TALLY says how far a book is: 8 words that dullavane_contents makes and every call that takes a record moves on.
       [0] units announced, 0 to 512             [4] smoothing, 1 to 10,000
       [1] requirements announced, 1 to 32       [5] bad-frequency limit, 0 to 75
       [2] records taken after the contents      [6] bad-unit percent, 0 to 100
       [3] least number the next may have        [7] interval number
   [4] to [7] are 0 until the settings are taken. The enum of the tally's words, below, names all eight.

   WHAT IS SAFE AND WHAT IS RIGHT. The tally can be copied, stored and handed in again with the lists as they were at that time; then the answer is right. Any
   other words and lists are memory-safe: a call reads and writes within the lengths that it is told, ends, and answers or refuses. But an answer over
   lists that do not belong together means nothing. What is told apart: each region's figures keep the interval number of their book, so that from a later
   book's first frequency record on a stored tally of the book before is refused with 11 by every call that reads the figures: dullavane_unit, dullavane_units,
   dullavane_answer, dullavane_member, dullavane_report, dullavane_panel_press, and dullavane_listing behind the interval's line. What is not told apart: a book
   sent again under the same interval number, lists of two books handed in together, and a frequency record, which dullavane_frequency takes by a stored tally
   too. There the reply may be 0, and the figures are of neither book. To show one book while the next one is taken keep two sets of the kept lists (LISTS TO
   LEND).

   A PART is the bytes of the book that start at the record whose turn it is: at least the record, or as many as there are. Only the last
   requirement looks past its record: there the part has to be all that is left of the book, so that bytes too many are seen (refusal 4). Where
   books come one behind the other on a line, hand it exactly its 24 bytes: what follows is the next book's, and 4 cannot come.

   ORDER OF CALLS                                            tally[2] before the call    part of the book
       dullavane_contents      once                          any; it makes the tally     56 bytes, the table of contents
       dullavane_settings      once                          0                           8 bytes
       dullavane_frequency     five times, regions 0 to 4    1 to 5                      368 bytes each
       dullavane_unit          tally[0] times                6 to 5 + tally[0]           372 bytes each
       dullavane_units         or in their place: runs of    likewise                    372 bytes a unit, and no byte more
                               any lengths, mixed with them
       dullavane_requirement   tally[1] times                6 + tally[0] to             24 bytes each; keep them for the answers
                                                             5 + tally[0] + tally[1]
       dullavane_answer        after the last unit, for any requirement, in any order, as often as wanted
       dullavane_member        likewise, for any row: who stands in it
       dullavane_report        likewise, for any row of the book's performance report, in any version
   The book has ended, and its answers may be shown, when tally[2] is 6 + tally[0] + tally[1]. dullavane_contents has the part first, all others the tally.

   REFUSALS
        1  the part ends before its record does; a run of units is not a whole number of records
        2  the book does not begin with the mark FCF1
        3  the table of contents: an entry, the entry count or the zero field is wrong
        4  bytes follow the last requirement
        5  a count in the table is over or under its limit
        6  a field of the settings breaks its rule
       71  a frequency record's header: region, separation, FM before the interval or generation
       72  a default of a frequency record
       73  the quality bytes of a frequency record: one of the last five bits is not zero
       74  a point of a frequency record (t): out of range, or a bad point that does not hold 0
       81  a unit's header: region, kind, start or end
       82  a default of a unit
       83  the quality bytes of a unit: one of the last five bits is not zero; of dullavane_write also a group over 65,535 or below 0
       84  a reading of a unit (t): out of range, or a bad reading that does not hold 0
        9  a unit's number does not rise
       16  a unit's group: its number stood before and was left, or it is in another region than the group's units before, or one of its six defaults is
           not 0 though it is not the group's first
       10  a field of a requirement breaks its rule, or its number does not rise
       11  not this call's turn; or the tally, or a lent number that the call reads, is out of range (what these calls leave is always in range); or a
           region's figures are of another interval than the tally; of a report also a row past the last, or a number over its field
       12  a lent list is too short; of a report's row also the text
       14  the average of a week is below the limit of its field in a book
       15  a row of the performance report: its interval ends past the year 9999 (an interval number over DULLAVANE_LAST_INTERVAL)
       17  a week of more than 2,016 intervals, or a live performance that no such member can have
       18  a row that dullavane_report_row never writes, whatever performances it is given; t is its first wrong column, 1 to 7
   The enum of refusals, below, names them, and dullavane_phrase gives each its phrase. 7, 8 and 13 are nobody's: earlier versions gave 7 and 8 where 71 to 74
   and 81 to 84 are told apart now, and no call can meet 13. 5 is given, too, where who a week's member is, as a number, is over 512, and by dullavane_sheet,
   which says when. dullavane_trend gives 12, 1, 81, 82, 83 and 84 alone: 9 and 16 speak of a unit's neighbours, and a record alone has none. A bad reading is
   no refusal. A call tests 12 for the tally's 8 words first, since without them there is no tally; then 11 for the tally and its turn, 12 for the lists, 11 for
   lent numbers that it reads, 1, and then the record's fields by their place.

   LISTS TO LEND (N is the number of units, at most 512)                                   bytes at N = 512
   kept of a book, as long as it is asked about
       tally          8 uint32_t                                                                         32
       measures       375 int32_t, region r from 75 r on: the frequency measure FM at its 75 points,  1,500
                      10,000,001 more at a point that is dropped from performance (macros below)
       sums           750 int64_t, 150 a region: at 150 r + t the sum of the deviations above zero    6,000
                      at point t (0 to 74), at 150 r + 75 + t that of the deviations below zero
       figures        50 int64_t, 10 a region: interval number of its book, generation, raise           400
                      reliable (1 or 0), lower reliable, six defaults
       numbers        N uint16_t, in the order of the book: a unit's number, a group's primary's      1,024
       homes          N uint8_t: 0, 2, 4, 6 or 8 is a bad member of region 0 to 4, 1, 3, 5, 7 or        512
                      9 a good one, and 10 a row that is passed over (macros below)
       rows           8 N int64_t, 8 a unit: performance for raise, for lower, six defaults          32,768
       requirements   24 M uint8_t, the records of M requirements, which the caller keeps               768
                      (M = 32; one byte more where the last is read in place, ORDER OF CALLS)
   while units are taken, and no longer
       groups         N uint16_t, a unit's group number, 0 for none                                   1,024
       deviations     75 int64_t, the summed deviations, at the 75 points, of the group that was        600
                      taken last
   of the requirement that was answered last, as long as it is shown
       performances, factors, payments, used, unused    N + 1 int64_t each                           20,520
       reply          8 uint64_t                                                                         64
   Kept of a book are 43,004 bytes, of an answer 20,584, and 1,624 while units are taken: 65,212 bytes in all. To show one book while the next one is taken,
   lend two sets of what is kept; groups, deviations and the answer's lists are needed once, since a book that is being taken has no answer yet: 108,216 bytes.
   With an answer's lists for each of two books they are 128,800. The constants below have the lengths and these sums. Where no answer is on show while units
   are taken, groups and deviations may have the memory of a column. On a display that shows one book while the next is taken they may not: the units would
   write over what is on show. No list has to be cleared before it is lent.

   A GROUP (bytes 70 and 71 of a unit's record, 0 for none) is one member: its units stand next to each other in one region, the first is its primary, and
   the group goes by the primary's number and defaults. Row, number and home of a unit of a group are those of the group up to this unit: performances and
   summed deviations are added up over its units, each with its own kind's sign, and a bad unit makes the group bad. So the group's are those of its last
   unit. When a unit joins a group, the home of the unit before is set to 10: that row is passed over, and stands for no member. A member's number of
   units is 1 more than how many rows right before its own are passed over. The sums of a region hold a group's summed deviations, above or below zero,
   as long as the group is good: each unit moves them from the group's part before to its part after, and a bad unit takes it out.

   DEFAULTS FROM SEVEN DAYS OF RECORD (6.4.1 of the market's Procedure) are worked out by four calls of their own, which need no tally: the sum of
   min(0, performance) over the live intervals of a week, divided by their number, to the nearest whole number, halves away from zero; 0 where
   none is live. A week is that of one member in one direction, at most 2,016 intervals. WHO THE MEMBER IS goes in as a number: 0 one region's
   residual, 1 a unit, 2 to 512 a group of so many units. A live performance is at most 5,625,000,000,000,000 either way for a unit, so much a unit
   for a group, 2,880,000,000,000,000,000 for a residual; the default is not below -5,625,000,000,000,000, for a residual -50,000,000,000,000,000.
   LIVE BITS: interval i is bit i mod 8 of byte i div 8, 1 is live; spare bits are not looked at, nor is what stands at an interval that is not live.
   A RUNNING WEEK is two words, both 0 at first: dullavane_week_add adds one interval, dullavane_week_read reads count and default at any time, the
   same as dullavane_week gives for the list of the intervals added.
       [0] the low part of the total of -min(0, performance)      [1] intervals seen + 65,536 x live ones + 2^32 x the high part of the total
   A total is high x 2,880,000,000,000,000,000 + low. Words that no calls leave are refused with 11. 512 units and five residuals take 16,544 bytes
   for both directions.

   IS A FACTOR SHEET POSSIBLE? dullavane_sheet holds a bureau's factors, in billionths, against a requirement's performances, those that factors are made
   of: payment defaults where they stand in. It needs no tally. Unlike other lists, these two are taken at their exact lengths. What an answer leaves in the
   columns performances and factors, as many numbers as it tells members, is always possible.

   WRITING A BOOK. dullavane_write takes a book's values and writes its bytes, or refuses and writes nothing. It needs no tally. The settings are four numbers,
   by value; everything else is lent: a row of int64_t a record for its small fields, one row behind the other, and lists of the field's own type for the long
   ones. Lists may be longer than the counts ask.
       region_rows        5 x 9 int64_t      a region's number is its position and is not handed in
       region_qualities   5 x 10 uint8_t     quality bytes as they stand in the book
       frequencies        5 x 75 uint32_t    a bad point is 0
       unit_rows          N x 12 int64_t
       unit_qualities     N x 10 uint8_t
       readings           N x 75 int32_t     a bad reading is 0
       requirement_rows   M x 7 int64_t
       book               DULLAVANE_BOOK_SIZE(N, M) uint8_t, written; bytes past the book stay
   A number that does not fit its field's width breaks that field's rule: a unit number over 65,535 is 9, a group over 65,535 is 83, an interval number past 32
   bits is 6. What is written is taken by the calls above as exactly what was handed in.

   A TREND STRIP. dullavane_trend draws the strip of one unit for a display: 75 points in MW, and a small record of lowest, highest and last. It reads the part
   that starts at the unit's record, and needs no tally and no turn: a strip can be drawn before, after or without adding the unit. Of a unit in a group it is
   the unit's own; points that are dropped from performance are drawn. A float is IEEE 754 binary32, on every processor; a float unit has to round to the
   nearest, as it does after reset. A point is the deviation in 75ths of a hundredth of a MW, its kind's sign included, as a float with nothing lost, divided
   once by 7,500: whole MW come out exactly, 0 is positive zero, and a larger deviation gives a larger point. Lists may be longer than DULLAVANE_STRIP_POINTS,
   DULLAVANE_STRIP_NUMBERS and DULLAVANE_DRAWN_NUMBERS.
       points             75 float           300 bytes, t = 1 to 75; points past the 75th stay
       strip              3 float            12 bytes, the lowest, the highest and the last of the 75 points
       drawn              1 uint32_t         4 bytes, how many points are drawn: 75, or 0
   A BAD UNIT, with any bad reading, is no refusal: its points stay as they were, its strip is three positive zeros, and drawn is 0. A plant that sits on its
   set point has three positive zeros too, and drawn is 75: go by drawn.

   THE PERFORMANCE REPORT. A row of it is a line of text: date and time, unit, raise performance, type, lower performance, type, version, with six commas and a
   line feed, 64 to 106 bytes (DULLAVANE_REPORT_BYTES):
       20/07/2021 05:10:00,1,0.987454049,Calculated,-1.552833070,Default,1
   Interval n ends 5 n minutes after 01/01/2000 00:00:00, so that midnight carries the new day. The unit is its number, a group's its primary's, or Residual, a
   space and the region's name. A performance is in MWHz with nine decimals: the nearest of 2/15 of our number, in billionths; minus zero is never written. Its
   type is Calculated, or Default where the payment default stands in, each direction its own. dullavane_report_row writes a row from its numbers,
   dullavane_report a row of a taken book: the members in roster order, then the five regions' residuals; dullavane_report_read reads a row back. For a whole
   report count the rows from 0 until 11 is returned. Text and numbers are lent, and may be longer than is asked for:
       text               the row's length uint8_t, 106 for any; written from its start, bytes past the row stay
       numbers            8 int64_t (DULLAVANE_REPORT_NUMBERS), what a row that was read says; numbers past them stay

   What is proved of each call, for any bytes, words and lists whatever: its return value and every lent number after it are those of the definitions that the
   calculator's rules are written out in. What is outside the proof: this header, the caller, and the compiler's back end, with it how the core divides and
   compares floats. */
#ifndef DULLAVANE_H
#define DULLAVANE_H

#include <stdint.h>

#ifdef __cplusplus
extern "C" {
#endif

/* The version of this header and of the libraries built with it. MAJOR moves where a program that compiled and ran may meet something else: an argument, a
   reply's bits, a list's length, a refusal's number. MINOR moves with new calls and names; PATCH where neither does. */
#define DULLAVANE_VERSION_MAJOR 1
#define DULLAVANE_VERSION_MINOR 0
#define DULLAVANE_VERSION_PATCH 0
#define DULLAVANE_VERSION "1.0.0"

/* An assertion when this is compiled: by C11 and by C++11 with what it says; before them by an array of no possible length. */
#if defined(__cplusplus) && __cplusplus >= 201103L
#define DULLAVANE_ASSERT(holds, says) static_assert(holds, says)
#elif defined(__STDC_VERSION__) && __STDC_VERSION__ >= 201112L
#define DULLAVANE_ASSERT(holds, says) _Static_assert(holds, says)
#else
#define DULLAVANE_ASSERT(holds, says) extern char dullavane_asserted[(holds) ? 1 : -1]
#endif

/* A whole array as a list: the pointer and the number of its elements. Not for a pointer, whose array's length it cannot see. */
#define DULLAVANE_LENT(list) (list), sizeof(list) / sizeof((list)[0])

enum {
    DULLAVANE_TALLY_WORDS = 8,
    DULLAVANE_REGIONS = 5,
    DULLAVANE_POINTS = 75,
    DULLAVANE_MEASURES = 375,
    DULLAVANE_SUMS = 750,
    DULLAVANE_FIGURES = 50,
    DULLAVANE_ROW = 8,
    DULLAVANE_PASSED_OVER = 10,
    DULLAVANE_MOST_UNITS = 512,
    DULLAVANE_MOST_REQUIREMENTS = 32,
    DULLAVANE_CONTENTS_SIZE = 56,
    DULLAVANE_SETTINGS_SIZE = 8,
    DULLAVANE_FREQUENCY_SIZE = 368,
    DULLAVANE_UNIT_SIZE = 372,
    DULLAVANE_REQUIREMENT_SIZE = 24,
    DULLAVANE_RECORD_MOST = DULLAVANE_UNIT_SIZE,
    DULLAVANE_MOST_INTERVALS = 2016,
    DULLAVANE_WEEK_WORDS = 2,
    DULLAVANE_MOST_MEMBERS = 513,
    DULLAVANE_VERDICT_WORDS = 2,
    DULLAVANE_QUALITY_BYTES = 10,
    DULLAVANE_REGION_ROW = 9,
    DULLAVANE_UNIT_ROW = 12,
    DULLAVANE_REQUIREMENT_ROW = 7,
    DULLAVANE_STRIP_POINTS = 75,
    DULLAVANE_DRAWN_NUMBERS = 1,
    DULLAVANE_REPORT_BYTES = 106,
    DULLAVANE_LAST_INTERVAL = 841518719
};

/* The lengths of all lists for any book, in their elements: numbers, homes and groups one a unit, rows eight a unit, each column one a member. A list that is
   kept for N units alone has N, 8 N and N + 1. */
enum {
    DULLAVANE_NUMBERS = DULLAVANE_MOST_UNITS,
    DULLAVANE_HOMES = DULLAVANE_MOST_UNITS,
    DULLAVANE_ROWS = DULLAVANE_ROW * DULLAVANE_MOST_UNITS,
    DULLAVANE_GROUPS = DULLAVANE_MOST_UNITS,
    DULLAVANE_DEVIATIONS = DULLAVANE_POINTS,
    DULLAVANE_COLUMN = DULLAVANE_MOST_MEMBERS,
    DULLAVANE_COLUMNS = 5,
    DULLAVANE_REQUIREMENTS_BYTES = DULLAVANE_REQUIREMENT_SIZE * DULLAVANE_MOST_REQUIREMENTS
};

/* The words of the tally. */
enum {
    DULLAVANE_TALLY_UNITS,
    DULLAVANE_TALLY_REQUIREMENTS,
    DULLAVANE_TALLY_RECORDS,
    DULLAVANE_TALLY_LEAST,
    DULLAVANE_TALLY_SMOOTHING,
    DULLAVANE_TALLY_LIMIT,
    DULLAVANE_TALLY_PERCENT,
    DULLAVANE_TALLY_INTERVAL
};

/* How many records stand before a book's units, and what the word DULLAVANE_TALLY_RECORDS is when the last unit and when the last requirement is taken. */
enum { DULLAVANE_BEFORE_UNITS = 1 + DULLAVANE_REGIONS };
#define DULLAVANE_UNITS_END(tally) (DULLAVANE_BEFORE_UNITS + (tally)[DULLAVANE_TALLY_UNITS])
#define DULLAVANE_BOOK_END(tally) (DULLAVANE_UNITS_END(tally) + (tally)[DULLAVANE_TALLY_REQUIREMENTS])

/* The refusals, by number. */
enum {
    DULLAVANE_NOT_REFUSED = 0,
    DULLAVANE_ENDS_EARLY = 1,
    DULLAVANE_WRONG_MARK = 2,
    DULLAVANE_WRONG_TABLE = 3,
    DULLAVANE_BYTES_FOLLOW = 4,
    DULLAVANE_WRONG_COUNT = 5,
    DULLAVANE_SETTINGS_FIELD = 6,
    DULLAVANE_UNIT_NOT_RISING = 9,
    DULLAVANE_REQUIREMENT_FIELD = 10,
    DULLAVANE_WRONG_STATE = 11,
    DULLAVANE_TOO_SHORT = 12,
    DULLAVANE_AVERAGE_TOO_LOW = 14,
    DULLAVANE_YEAR_PAST = 15,
    DULLAVANE_WRONG_GROUP = 16,
    DULLAVANE_WRONG_WEEK = 17,
    DULLAVANE_WRONG_ROW = 18,
    DULLAVANE_FREQUENCY_HEADER = 71,
    DULLAVANE_FREQUENCY_DEFAULT = 72,
    DULLAVANE_FREQUENCY_QUALITY = 73,
    DULLAVANE_FREQUENCY_POINT = 74,
    DULLAVANE_UNIT_HEADER = 81,
    DULLAVANE_UNIT_DEFAULT = 82,
    DULLAVANE_UNIT_QUALITY = 83,
    DULLAVANE_UNIT_READING = 84
};

/* A refusal's phrase, at most 20 characters, as dullavane_panel_phrase draws it; of 0 and of a number that no refusal has it is `unknown`. */
static inline const char *dullavane_phrase(uint32_t refusal) {
    switch (refusal) {
    case DULLAVANE_ENDS_EARLY: return "ends too early";
    case DULLAVANE_WRONG_MARK: return "not an interval book";
    case DULLAVANE_WRONG_TABLE: return "wrong contents table";
    case DULLAVANE_BYTES_FOLLOW: return "bytes after the end";
    case DULLAVANE_WRONG_COUNT: return "count out of limits";
    case DULLAVANE_SETTINGS_FIELD: return "wrong settings";
    case DULLAVANE_UNIT_NOT_RISING: return "unit out of order";
    case DULLAVANE_REQUIREMENT_FIELD: return "wrong requirement";
    case DULLAVANE_WRONG_STATE: return "call out of turn";
    case DULLAVANE_TOO_SHORT: return "buffer too short";
    case DULLAVANE_AVERAGE_TOO_LOW: return "default too low";
    case DULLAVANE_YEAR_PAST: return "year past 9999";
    case DULLAVANE_WRONG_GROUP: return "wrong group";
    case DULLAVANE_WRONG_WEEK: return "week out of limits";
    case DULLAVANE_WRONG_ROW: return "wrong report row";
    case DULLAVANE_FREQUENCY_HEADER:
    case DULLAVANE_FREQUENCY_DEFAULT:
    case DULLAVANE_FREQUENCY_QUALITY:
    case DULLAVANE_FREQUENCY_POINT: return "wrong frequency data";
    case DULLAVANE_UNIT_HEADER:
    case DULLAVANE_UNIT_DEFAULT:
    case DULLAVANE_UNIT_QUALITY:
    case DULLAVANE_UNIT_READING: return "wrong unit data";
    default: return "unknown";
    }
}

/* The words of an answer, in their order: how many members the requirement has, its RCR, the three pools, what of the used and of the unused pool is
   unplaced, and how the residual stands (a standing as below). Pools and what is unplaced are cents; RCR is in 75ths of a hundredth of a MW. */
enum {
    DULLAVANE_MEMBERS,
    DULLAVANE_RCR,
    DULLAVANE_POOL,
    DULLAVANE_USED_POOL,
    DULLAVANE_UNUSED_POOL,
    DULLAVANE_UNPLACED_USED,
    DULLAVANE_UNPLACED_UNUSED,
    DULLAVANE_RESIDUAL,
    DULLAVANE_REPLY_WORDS
};

/* The words of a row: 1 where it is a member's of the requirement and 0 where it is not, the member's number, its standing. A row that is passed over, or of
   another region, has 0 in all three. */
enum { DULLAVANE_IS_MEMBER, DULLAVANE_NUMBER, DULLAVANE_STANDING, DULLAVANE_MEMBER_WORDS };

/* What a lent measure says of its point: whether the point is dropped from performance, and FM, -5,000,000 to 5,000,000. A good frequency point is dropped
   if FM and frequency - 50,000,000 are both above 0 or both below 0, and the frequency is below 49,985,000 or above 50,015,000. */
#define DULLAVANE_IS_DROPPED(measure) ((measure) > 5000000)
#define DULLAVANE_FM(measure) (DULLAVANE_IS_DROPPED(measure) ? (measure) - 10000001 : (measure))

/* What a lent home says of its row of the roster: whether it is passed over, being no member's; else its region, 0 to 4, and whether its member is good. */
#define DULLAVANE_IS_PASSED_OVER(home) ((home) == DULLAVANE_PASSED_OVER)
#define DULLAVANE_HOME_REGION(home) ((home) / 2)
#define DULLAVANE_IS_GOOD(home) ((home) % 2 == 1)

/* RCR in whole MW, and what is left of it in ten-thousandths of a MW, cut off: 7,500 of RCR are 1 MW. */
#define DULLAVANE_RCR_MW(rcr) ((uint64_t)(rcr) / 7500)
#define DULLAVANE_RCR_REST(rcr) ((uint32_t)((uint64_t)(rcr) % 7500 * 10000 / 7500))

/* How a member stands: live, by its own performance, or by its default, with the reason: its region is unreliable, the member is bad, or (of a residual) no
   member of its regions is good. */
enum { DULLAVANE_LIVE, DULLAVANE_UNRELIABLE_REGION, DULLAVANE_BAD_UNIT, DULLAVANE_NO_GOOD_UNIT };

/* What is wrong with a sheet of factors: nothing, a member, or the sum of a side. */
enum { DULLAVANE_POSSIBLE, DULLAVANE_WRONG_MEMBER, DULLAVANE_WRONG_POSITIVE, DULLAVANE_WRONG_NEGATIVE };

/* Whose week it is, as a number: a residual, a unit, or so many units of a group. */
enum { DULLAVANE_A_RESIDUAL, DULLAVANE_UNIT };

/* The numbers of a week's answer: how many intervals are live, and the default, which is at most 0. */
enum { DULLAVANE_COUNT, DULLAVANE_DEFAULT, DULLAVANE_DEFAULT_NUMBERS };

/* The numbers of a trend strip's small record, in MW. */
enum { DULLAVANE_LOWEST, DULLAVANE_HIGHEST, DULLAVANE_LAST, DULLAVANE_STRIP_NUMBERS };

/* The numbers of a row that was read, in their order: the interval number; 0 where the row is a unit's (or a group's, by its primary's number) and 1 where it
   is a residual's; the unit's number, or the region's, 0 to 4; raise and lower in billionths of a MWHz, each with its type behind it; the version. */
enum {
    DULLAVANE_REPORT_INTERVAL,
    DULLAVANE_REPORT_RESIDUAL,
    DULLAVANE_REPORT_NUMBER,
    DULLAVANE_REPORT_RAISE,
    DULLAVANE_REPORT_RAISE_TYPE,
    DULLAVANE_REPORT_LOWER,
    DULLAVANE_REPORT_LOWER_TYPE,
    DULLAVANE_REPORT_VERSION,
    DULLAVANE_REPORT_NUMBERS
};

/* The types of a row's performances: live, or the payment default that stands in. */
enum { DULLAVANE_TYPE_CALCULATED, DULLAVANE_TYPE_DEFAULT };

/* The columns of a region's row to be written: separation, FM before the interval, generation, and the first of six defaults (payment, used, unused for raise,
   then for lower). */
enum { DULLAVANE_REGION_SEPARATION, DULLAVANE_REGION_FM_BEFORE, DULLAVANE_REGION_GENERATION, DULLAVANE_REGION_DEFAULTS };

/* The columns of a unit's row; the last name is the first of six defaults. */
enum {
    DULLAVANE_UNIT_NUMBER,
    DULLAVANE_UNIT_REGION,
    DULLAVANE_UNIT_KIND,
    DULLAVANE_UNIT_START,
    DULLAVANE_UNIT_END,
    DULLAVANE_UNIT_GROUP,
    DULLAVANE_UNIT_DEFAULTS
};

/* The columns of a requirement's row. */
enum {
    DULLAVANE_REQUIREMENT_NUMBER,
    DULLAVANE_REQUIREMENT_SET,
    DULLAVANE_REQUIREMENT_DIRECTION,
    DULLAVANE_REQUIREMENT_PRICE,
    DULLAVANE_REQUIREMENT_COST,
    DULLAVANE_REQUIREMENT_ENABLED,
    DULLAVANE_REQUIREMENT_USED
};

/* The size of a book of so many units and requirements, and the length that dullavane_write replies where it has written one. */
#define DULLAVANE_BOOK_SIZE(units, requirements) (UINT64_C(1904) + UINT64_C(372) * (units) + UINT64_C(24) * (requirements))
#define DULLAVANE_LENGTH(reply) ((uint32_t)((uint64_t)(reply) >> 32))

/* A refusal's number, and where it is: the place of its record in its body, and t of its point or reading, each 0 where there is none. */
#define DULLAVANE_REFUSAL(reply) ((uint32_t)((uint64_t)(reply) & UINT64_C(0xffffffff)))
#define DULLAVANE_PLACE(reply) ((uint32_t)((uint64_t)(reply) >> 32 & UINT64_C(0xffff)))
#define DULLAVANE_T(reply) ((uint32_t)((uint64_t)(reply) >> 48))

/* What the lists take, in bytes: what is kept of a book of 512 units and 32 requirements, what is needed while units are taken, and an answer's; all of them
   for one book; for one on show while the next is taken; and with an answer's lists for each of the two. */
enum {
    DULLAVANE_KEPT_BYTES = 4 * DULLAVANE_TALLY_WORDS + 4 * DULLAVANE_MEASURES + 8 * DULLAVANE_SUMS + 8 * DULLAVANE_FIGURES + 2 * DULLAVANE_NUMBERS +
                           DULLAVANE_HOMES + 8 * DULLAVANE_ROWS + DULLAVANE_REQUIREMENTS_BYTES,
    DULLAVANE_TAKING_BYTES = 2 * DULLAVANE_GROUPS + 8 * DULLAVANE_DEVIATIONS,
    DULLAVANE_ANSWER_BYTES = 8 * DULLAVANE_COLUMNS * DULLAVANE_COLUMN + 8 * DULLAVANE_REPLY_WORDS,
    DULLAVANE_ONE_BOOK_BYTES = DULLAVANE_KEPT_BYTES + DULLAVANE_TAKING_BYTES + DULLAVANE_ANSWER_BYTES,
    DULLAVANE_TWO_BOOKS_BYTES = DULLAVANE_ONE_BOOK_BYTES + DULLAVANE_KEPT_BYTES,
    DULLAVANE_TWO_ANSWERS_BYTES = DULLAVANE_TWO_BOOKS_BYTES + DULLAVANE_ANSWER_BYTES
};

DULLAVANE_ASSERT(sizeof(uint8_t) == 1 && sizeof(uint16_t) == 2 && sizeof(uint32_t) == 4 && sizeof(uint64_t) == 8, "bytes have 8 bits");
DULLAVANE_ASSERT(sizeof(float) == 4, "a float is 32 bits");
DULLAVANE_ASSERT(DULLAVANE_MEASURES == DULLAVANE_REGIONS * DULLAVANE_POINTS, "a region has 75 measures");
DULLAVANE_ASSERT(DULLAVANE_SUMS == 2 * DULLAVANE_MEASURES, "a region has 75 sums above zero and 75 below");
DULLAVANE_ASSERT(DULLAVANE_FIGURES == 10 * DULLAVANE_REGIONS, "a region has ten figures");
DULLAVANE_ASSERT(DULLAVANE_MOST_MEMBERS == DULLAVANE_MOST_UNITS + 1, "every unit and one residual");
DULLAVANE_ASSERT(DULLAVANE_TALLY_INTERVAL + 1 == DULLAVANE_TALLY_WORDS && DULLAVANE_REPLY_WORDS == 8, "a tally and a reply are eight words each");
DULLAVANE_ASSERT(DULLAVANE_KEPT_BYTES == 43004 && DULLAVANE_TAKING_BYTES == 1624 && DULLAVANE_ANSWER_BYTES == 20584, "what the lists take");
DULLAVANE_ASSERT(DULLAVANE_ONE_BOOK_BYTES == 65212 && DULLAVANE_TWO_BOOKS_BYTES == 108216 && DULLAVANE_TWO_ANSWERS_BYTES == 128800, "and in all");
DULLAVANE_ASSERT(DULLAVANE_RECORD_MOST >= DULLAVANE_FREQUENCY_SIZE && DULLAVANE_RECORD_MOST >= DULLAVANE_CONTENTS_SIZE, "no record is longer than a unit's");
DULLAVANE_ASSERT(DULLAVANE_BOOK_SIZE(0, 0) == DULLAVANE_CONTENTS_SIZE + DULLAVANE_SETTINGS_SIZE + DULLAVANE_REGIONS * DULLAVANE_FREQUENCY_SIZE,
                 "a book without units and requirements");

/* Starts a tally from the table of contents. Whatever the 8 words held is gone, unless it refuses: 12 (no room for 8 words), 1, and then the table's fields by
   their place: 2 (the mark), 3 (the entry count, the zero field), and of each entry 3 (its kind), 5 (its count), 3 (its offset, its length). */
uint64_t dullavane_contents(const uint8_t *part, uint64_t part_bytes, uint32_t *tally, uint64_t tally_words);

/* Takes the settings. Refuses 12, 11, 1, 6. */
uint64_t dullavane_settings(uint32_t *tally, uint64_t tally_words, const uint8_t *part, uint64_t part_bytes);

/* Takes the frequency record of the next region: writes its 75 measures and its 10 figures, and sets its 150 sums to 0. Refuses 12, 11, 12, 1, then
   71 (region, separation), 73, 71 (FM before, generation), 72, 74. */
uint64_t dullavane_frequency(uint32_t *tally, uint64_t tally_words, const uint8_t *part, uint64_t part_bytes,
                             int32_t *measures, uint64_t measures_length, int64_t *sums, uint64_t sums_length,
                             int64_t *figures, uint64_t figures_length);

/* Takes a unit: adds its deviations to its region's sums if no reading is bad, and writes its number, its home, its row and its group number; with a group
   number other than 0 it moves the group's part of the sums instead, and writes the group's 75 summed deviations. When k units are taken, numbers, homes and
   groups have to be longer than k, rows at least 8 k + 8, deviations at least 75. Refuses 12, 11, 12, 11 (figures of another interval; a measure or a sum of
   the region that the record names is out of range; and where the record names the group of the unit before, whatever is wrong with it otherwise: that unit's
   home is 10 or more, one of its performances is over 5,625,000,000,000,000 k either way, one of its defaults breaks the rule of a unit's default, or one of
   the 75 deviations is over 15,000,000 k either way), 1, 81, 82, 83, 84, 9, 16. A record that ends before byte 72 names no group. */
uint64_t dullavane_unit(uint32_t *tally, uint64_t tally_words, const uint8_t *part, uint64_t part_bytes,
                        const int32_t *measures, uint64_t measures_length, int64_t *sums, uint64_t sums_length,
                        const int64_t *figures, uint64_t figures_length, uint16_t *numbers, uint64_t numbers_length,
                        uint8_t *homes, uint64_t homes_length, int64_t *rows, uint64_t rows_length,
                        uint16_t *groups, uint64_t groups_length, int64_t *deviations, uint64_t deviations_length);

/* Takes a run of whole unit records, one after the other: tally and lists are as after so many calls of dullavane_unit, and a refusal is the one that such a
   call would give at its record, with its place in the run. The records before it stay added, and none after it is looked at. An empty run is taken and
   changes nothing, whatever tally and lists are. Refuses 1 for a run that is not a whole number of records, before anything else; then, record by record, what
   dullavane_unit refuses, in its order. */
uint64_t dullavane_units(uint32_t *tally, uint64_t tally_words, const uint8_t *run, uint64_t run_bytes,
                         const int32_t *measures, uint64_t measures_length, int64_t *sums, uint64_t sums_length,
                         const int64_t *figures, uint64_t figures_length, uint16_t *numbers, uint64_t numbers_length,
                         uint8_t *homes, uint64_t homes_length, int64_t *rows, uint64_t rows_length,
                         uint16_t *groups, uint64_t groups_length, int64_t *deviations, uint64_t deviations_length);

/* Takes a requirement. Nothing of it is kept but its number's successor: keep its 24 bytes for dullavane_answer. With the last one the book ends.
   Refuses 12, 11, 1, 10, and with the last one 4. */
uint64_t dullavane_requirement(uint32_t *tally, uint64_t tally_words, const uint8_t *part, uint64_t part_bytes);

/* Answers a requirement, from its 24 bytes and what the calls have left in the lists; it may be asked again, and changes nothing but the five columns and
   the reply. Each column has one number for every member, in this order: the units and groups of the requirement's regions as they stand in the book, then one
   residual; numbers past those stay. In performances 1 MWHz is 7,500,000,000, factors are billionths, payments, used and unused are cents, and charges
   are negative. Homes have to be tally[0] long, rows 8 x tally[0], each column tally[0] + 1. Refuses 12, 11 (also before the last unit), 12, 11
   (figures of another interval; a lent number is out of range: a home is at most 10, a performance at most 5,625,000,000,000,000 either way for each of
   1 + the rows right before it that are passed over), 1, 10. */
uint32_t dullavane_answer(const uint32_t *tally, uint64_t tally_words, const uint8_t *part, uint64_t part_bytes,
                          const int32_t *measures, uint64_t measures_length, const int64_t *sums, uint64_t sums_length,
                          const int64_t *figures, uint64_t figures_length, const uint8_t *homes, uint64_t homes_length,
                          const int64_t *rows, uint64_t rows_length,
                          int64_t *performances, uint64_t performances_length, int64_t *factors, uint64_t factors_length,
                          int64_t *payments, uint64_t payments_length, int64_t *used, uint64_t used_length,
                          int64_t *unused, uint64_t unused_length, uint64_t *reply, uint64_t reply_words);

/* Says who stands in a row of the roster (0 is the first unit) for a requirement of this direction (byte 3 of its record: 0 raise, 1 lower) and region
   set (byte 2). The members of an answer's columns are the rows that are members, in their order, and then the residual. Refuses 12 (the tally's words),
   11 (the tally; before the last unit; a row over 65,535, a direction over 1, a set over 255), 12 (no room for the three words), 11 (no such row; a set
   that is 0 or over 31), 12 (a list), 11 (figures of another interval; a lent number is out of range). */
uint32_t dullavane_member(const uint32_t *tally, uint64_t tally_words, uint32_t row, uint32_t direction, uint32_t set,
                          const int64_t *figures, uint64_t figures_length, const uint16_t *numbers, uint64_t numbers_length,
                          const uint8_t *homes, uint64_t homes_length, uint32_t *member, uint64_t member_words);

/* Count and default of one member's week, from a list of performances and their live bits. Refuses 12 (fewer bytes than the bits need, or no room for the
   two numbers), 5, 17, 14. */
uint32_t dullavane_week(uint16_t whose, const int64_t *performances, uint64_t intervals, const uint8_t *live, uint64_t live_length,
                        int64_t *reply, uint64_t reply_length);

/* The same for a roster: whose[j] says who member j is; its performances are the so many from j x intervals on, its live bits start at a byte of their own,
   j times as many bytes on as hold the bits of one. Its count and default go to counts[j] and defaults[j]. Refuses 12, then for all members 5, then
   17, then 14. */
uint32_t dullavane_weeks(uint32_t intervals, const uint16_t *whose, uint64_t members, const int64_t *performances, uint64_t performances_length,
                         const uint8_t *live, uint64_t live_length, uint16_t *counts, uint64_t counts_length,
                         int64_t *defaults, uint64_t defaults_length);

/* Adds an interval to a running week; live is 0 where the performance is none to look at, and any other number where it is live. One and the same week may
   be that of a unit in one interval and of a group in another. Refuses 12 (fewer than two words), 11, 5, 17 (a 2,017th interval; the performance). */
uint32_t dullavane_week_add(uint16_t whose, uint8_t live, int64_t performance, uint64_t *week, uint64_t week_length);

/* Reads count and default off a running week, which stays as it is. Refuses 12 (either list), 11, 5, 14. */
uint32_t dullavane_week_read(uint16_t whose, const uint64_t *week, uint64_t week_length, int64_t *reply, uint64_t reply_length);

/* Can these factors be right? Into two words of verdict goes what is wrong (as above), and the first wrong member, from 1, or 0 where it is none. Each factor
   has to be less than one billionth from its performance over the absolute total of its side, with its sign or 0; with a performance of 0 it is 0; and each
   side that has a member sums to exactly plus or minus 1,000,000,000. Refuses 12 (fewer than two words), 5 (more than 513 factors), 12 (factors and
   performances differ in number), 5 (a side's absolute total over 6,010,000,000,000,000,000). */
uint32_t dullavane_sheet(const int64_t *performances, uint64_t performances_length, const int64_t *factors, uint64_t factors_length, uint64_t *verdict,
                         uint64_t verdict_length);

/* Writes a book of so many units and requirements from its values. Returns in bits 0 to 31 the refusal's number, 0 where the book is written, and then in bits
   32 to 63 its length (DULLAVANE_REFUSAL, DULLAVANE_LENGTH); a refusal has its place and t as in the calls that take a book, 12 and 5 have place 0. Everything
   is tested before the first byte is written. Refuses 12 by the counts as given (the buffer is shorter than DULLAVANE_BOOK_SIZE, or a list shorter than its
   count asks), 5 (more than 512 units, no requirement or more than 32), then in the order of the book: 6; of each region 71 (separation), 73, 71 (FM before,
   generation), 72, 74; of each unit 81, 82, 83, 84, 9, 16; of each requirement 10. */
uint64_t dullavane_write(int64_t smoothing, int64_t limit, int64_t percent, int64_t interval,
                         const int64_t *region_rows, uint64_t region_rows_length, const uint8_t *region_qualities, uint64_t region_qualities_length,
                         const uint32_t *frequencies, uint64_t frequencies_length,
                         uint32_t units, const int64_t *unit_rows, uint64_t unit_rows_length, const uint8_t *unit_qualities, uint64_t unit_qualities_length,
                         const int32_t *readings, uint64_t readings_length,
                         uint32_t requirements, const int64_t *requirement_rows, uint64_t requirement_rows_length,
                         uint8_t *book, uint64_t book_bytes);

/* Draws the trend strip of the unit whose record the part starts with (372 bytes; those behind it are not read): writes its 75 points, lowest, highest and
   last, and 75 into drawn; of a unit with a bad reading no point, three positive zeros, and 0. What stands past these numbers stays. Returns 0, or in bits 0 to
   31 the refusal's number and in bits 48 to 63 t; the place is 0. On a refusal nothing is written. Refuses 12 (one of the three lists), then 1, 81, 82, 83 and
   84, which alone has t; never 9 or 16. A wrong field goes before a bad reading. */
uint64_t dullavane_trend(const uint8_t *part, uint64_t part_bytes, float *points, uint64_t points_length, float *strip, uint64_t strip_length,
                         uint32_t *drawn, uint64_t drawn_length);

/* Writes a row of the performance report from its numbers: the interval number; 0 for a unit's row or 1 for a residual's; the unit's number (any of 16 bits,
   0 too) or the region's; raise and lower as performances (1 MWHz is 7,500,000,000; any signed 64 bits), each with its type; the version. Bytes past the row
   stay. Returns in bits 0 to 31 the refusal's number, 0 where the row is written, and then in bits 32 to 63 its length (DULLAVANE_REFUSAL, DULLAVANE_LENGTH):
   go by the number, since the whole reply is never 0. On a refusal nothing is written. Refuses 11 (a unit's number or a version over 65,535, a region over 4,
   residual or a type over 1), 15 (an interval number over DULLAVANE_LAST_INTERVAL), 12 (the text is shorter than the row). */
uint64_t dullavane_report_row(uint32_t interval, uint32_t residual, uint32_t number, int64_t raise, uint32_t raise_type, int64_t lower, uint32_t lower_type,
                              uint32_t version, uint8_t *text, uint64_t text_bytes);

/* Writes a row of a taken book's report; row 0 is the first. There is one for each member in roster order (a row of the roster that is passed over, home 10,
   is no member's), then one for each of the five regions' residuals; performances are live, or the payment default. It may be asked once every unit is taken,
   for any row, as often as wanted. The text and the reply are those of dullavane_report_row. Refuses 12 (the tally's words), 11 (the tally; before the last
   unit; a version over 65,535), 12 (a list: 50 figures, tally[0] numbers, tally[0] homes, 8 x tally[0] rows), 11 (figures of another interval; then: no such
   row; then: a lent number that the row reads is out of range), 15, 12 (the text). A member's row reads its home (at most 9 there), the eight numbers of its
   row of the roster (limits as in dullavane_answer) and the figures of its region; a residual's reads the figures of its region and home and numbers of every
   row of the roster, as dullavane_answer does. */
uint64_t dullavane_report(const uint32_t *tally, uint64_t tally_words, uint32_t row, uint32_t version, const int64_t *figures, uint64_t figures_length,
                          const uint16_t *numbers, uint64_t numbers_length, const uint8_t *homes, uint64_t homes_length,
                          const int64_t *rows, uint64_t rows_length, uint8_t *text, uint64_t text_bytes);

/* Reads a row back, with its line feed and nothing behind it, into eight numbers; numbers past them stay. It takes exactly the rows that dullavane_report_row
   writes. Returns 0, or in bits 0 to 31 the refusal's number and in bits 48 to 63 t; the place is 0. On a refusal nothing is written. Refuses 12 (fewer than
   eight numbers), then 18 with the first wrong column, 1 to 7, as t. A column is what stands between two commas, whatever it is, a line feed too; the seventh
   is all that stands behind the sixth comma. A column that is not there is wrong. */
uint64_t dullavane_report_read(const uint8_t *row, uint64_t row_bytes, int64_t *numbers, uint64_t numbers_length);

#ifdef __cplusplus
}
#endif

#endif
