/* The strike book for programs in C and C++: which strike prices may be listed on individual
 * stocks. The functions are proved for every input. They stand in libexport.a (x86-64 Linux),
 * strike_book_compare_lists in liblists.a, and the strike_book_known_ functions in libknown.a; each
 * needs memset and memmove of the C library and nothing else.
 *
 * UNITS
 *   class         a stock with options: its class number, 1 to 16,383
 *   month         a count of months, 0 to 1,023; the book holds the current one, 0 at first
 *   close         the stock's closing price in cents, 1 to 999,999
 *   low, high     the day's lowest and highest price in cents, 1 to 999,999
 *   volume        the national average of contracts a day, 0 to 9,999,999
 *   strike        in half dollars, 1 to 19,999: 25 is $12.50
 *   program       an enum strike_book_program
 *   designation   an enum strike_book_designation
 *   mark          open interest: 1 there is some, 0 there is none
 * Any number may be passed; one beyond these limits is refused with STRIKE_BOOK_BEYOND_LIMITS.
 * Puts and calls of one strike are listed together. An expiration is a month of a class; it is
 * long when it is 9 months or more after the current month, and near otherwise.
 *
 * RUNS
 * A book lives in a run of 4 to 65,535 words of 32 bits that the caller lends for each call and
 * keeps: an array, a mapped file, any memory. strike_book_fresh makes a book of any run, and
 * strike_book_compare_lists of any two of one length. Every other call may be made on any words at
 * all: where they are no book it answers STRIKE_BOOK_NOT_A_BOOK and changes nothing, except that
 * strike_book_read_known_counter does not ask whether they are one, and that the calls over a known
 * book below may be made on a book alone. A book may be copied, stored and lent again; to move it
 * to a run of another length, the words past those used must be zero there too.
 *
 * What the caller owes:
 *   - A pointer is not null, is aligned for its type, and is valid for as many elements as its
 *     length says, for reading, and for writing too where it is not const. With a length of 0
 *     nothing is read or written, and any pointer that is not null and is aligned will do.
 *   - The runs, the sheet, the answers, the pool, the lists and the places lent to one call do not
 *     overlap each other; only two that are both const may.
 *   - No other thread writes a run while it is lent, and none reads one that is not const.
 * There is no global state and no allocation: calls on different runs may be made from any
 * threads at once, and a run that is lent as const may be lent to several calls at once.
 *
 * KNOWN BOOKS
 * Each call walks the run first, to test whether it is a book. The thirteen functions
 * strike_book_known_ make the same calls without that test. Over a book each answers the same, and
 * leaves the same words, as the function without known_ in its name, and the run is a book again;
 * so none of them answers STRIKE_BOOK_NOT_A_BOOK.
 *
 * What the caller owes beside the above is that the run is a book. It is one where
 *   - strike_book_fresh accepted it, or strike_book_is_book answered true, at this length, and
 *   - since then only functions of this header have written it, lent to them at this length as the
 *     run of the book, and never as a second run, answers, places or a pool.
 * A book that comes from elsewhere, a file or another program, is tested once. Over words that are
 * no book nothing is promised at all: no answer, not that the call ends, and not even that it
 * touches only the words that it is lent.
 *
 * `places` are words in which these calls remember where they found classes, so as to find them
 * sooner the next time. They may hold any words, and there may be any count of them, none too, with
 * a length of 0. They are lent for writing, and lie apart from the other runs; calls that are made
 * at once need places of their own. Keep them from call to call for one book; zeros at first will
 * do. Nothing depends on them but speed: no answer, and no word of the book. A class has the word
 * at its number modulo their count, which classes may share. 1,024 is what strike_book_run_sheet
 * keeps while it reads a sheet.
 *
 * ANSWERS
 * Each call answers a number and a value. Number 0 is acceptance; the others are refusals. Of those
 * that apply the first is given, in the order of enum strike_book_number, which is not everywhere
 * that of the numbers. A refusal changes no word of any run, and its value is 0, except where
 * strike_book_list_permitted is refused with STRIKE_BOOK_OUT_OF_WORDS. The value of an accepted
 * call is said with the call, and is 0 where nothing is said. Where a counter is read, two counts
 * stand in the place of the value, both 0 in a refusal.
 *
 * THE WORDS OF A BOOK, for readers
 * Bits 28 to 31 are a word's kind, bit 0 is the lowest, and bits that are not named are 0.
 *   1 head         current month in bits 0 to 9, words used (this one too) in 10 to 25
 *   2 class        number in bits 0 to 13, designation in the $1 program in 14 to 15, in the $0.50
 *                  program in 16 to 17 and in the $2.50 program in 18 to 19; followed by its close,
 *                  its volume, its low and its high
 *   3 close        bits 0 to 19, 0 where none has come
 *   4 volume       bits 0 to 23
 *   5 expiration   month in bits 0 to 9; followed by its strikes, at least one
 *   6 strike       half dollars in bits 0 to 14, ground in 15 to 17, put mark in 18, call mark
 *                  in 19
 *   7 low or high  bits 0 to 19, 0 where no close has come
 *   8 counter      of a program: its classes of our own in bits 0 to 7, the standing strikes on its
 *                  grounds in 8 to 23
 * The head comes first, then the counters of the $1, the $0.50 and the $2.50 program, then the
 * classes. The counters are true: over all classes, a class counts by its designation 1, and a
 * strike by its own ground (see enum strike_book_program), whatever the designations of its class
 * are now. Classes rise by number, the expirations of a class by month, the strikes of an
 * expiration by height, none twice. Where a class has a close, its low is at least 1 and at most
 * the close, and its high at least the close. Expirations lie from the current month to 39 months
 * after it. Words past those used are 0.
 */
#ifndef STRIKEBOOK_H
#define STRIKEBOOK_H

#include <stdbool.h>
#include <stddef.h>
#include <stdint.h>

#ifdef __cplusplus
extern "C" {
#endif

/* The number of an answer. Refusals stand in the order in which they are tested. */
enum strike_book_number {
    STRIKE_BOOK_ACCEPTED = 0,
    /* The run is no book; or strike_book_fresh or strike_book_compare_lists was lent a run of fewer
     * than 4 words or of more than 65,535, or the second of these two runs of two lengths. */
    STRIKE_BOOK_NOT_A_BOOK = 1,
    /* A number is beyond its limits, or a line of a sheet is malformed. */
    STRIKE_BOOK_BEYOND_LIMITS = 2,
    /* The class is open already. */
    STRIKE_BOOK_ALREADY_OPEN = 3,
    /* The class is not open. */
    STRIKE_BOOK_NOT_OPEN = 4,
    /* The new current month is before the present one; or the month to list in is the current
     * one, before it, or more than 39 months after it. */
    STRIKE_BOOK_MONTH_OUTSIDE = 5,
    /* The strike stands in the expiration already. */
    STRIKE_BOOK_ALREADY_STANDING = 6,
    /* The strike does not stand in the expiration. */
    STRIKE_BOOK_NOT_STANDING = 7,
    /* The class has no close yet. */
    STRIKE_BOOK_NO_CLOSE = 8,
    /* The low is above the close, or the high is below it. */
    STRIKE_BOOK_CLOSE_OUTSIDE = 16,
    /* Close or volume of the class does not qualify for the program. */
    STRIKE_BOOK_NOT_QUALIFIED = 9,
    /* The program has as many classes of our own as it may have: 150 ($1), 20 ($0.50), 60
     * ($2.50). */
    STRIKE_BOOK_CAP_REACHED = 10,
    /* The strike is on no ground's grid. */
    STRIKE_BOOK_OFF_GRID = 11,
    /* The strike is on some ground's grid, and for each of these out of range at the low and at the
     * high. In range is, at a price above $20, from half the price to one and a half times it; at
     * $20 or less, up to twice the price, and the five lowest strikes above it: of whole dollars
     * for STANDARD and DOLLAR in a near expiration of the $1 program, else of the ground's own
     * grid. A WING is in range at a price for which its grid has it, and at which the multiples of
     * $5 below and above it are in range as STANDARD. TWO_FIFTY has the range of STANDARD, and its
     * own strikes are not among the five. */
    STRIKE_BOOK_OUT_OF_RANGE = 12,
    /* The strike is on a grid and in range, and too near to one that stands: within $1 in a long
     * expiration; within $0.50 where one is on the ground DOLLAR and the other is on the ground
     * STANDARD or TWO_FIFTY and an odd multiple of $2.50. */
    STRIKE_BOOK_TOO_CLOSE = 13,
    /* The strike has open interest and cannot be delisted. */
    STRIKE_BOOK_OPEN_INTEREST = 14,
    /* The run has too few words for a new class or strike, or the second run too few for the
     * permitted strikes; in the second case the value is how many it needs. */
    STRIKE_BOOK_OUT_OF_WORDS = 15
};

/* The ground on which a strike is listed: the first, from 0 up, whose grid, range and spacing it
 * passes. */
enum strike_book_ground {
    /* The standard intervals: $2.50 to $25, $5 to $200, $10 above. A class in the $1 program has
     * only multiples of $5 below $50. */
    STRIKE_BOOK_STANDARD = 0,
    /* Whole dollars from $1 to $50: near expirations, $1 program, close below $50. */
    STRIKE_BOOK_DOLLAR = 1,
    /* Half dollars to $5.50: near expirations, $0.50 program, close at most $5, volume at least
     * 1,000. */
    STRIKE_BOOK_HALF = 2,
    /* Between two neighbouring multiples of $5, from $5 to $50: $2 above the lower one where the
     * upper one is at or above the low or the high, $3 above it where the upper one is at or below
     * the low or the high. Long expirations, $1 program, close below $50. */
    STRIKE_BOOK_WING = 3,
    /* Multiples of $2.50 above $25 and below $50, and from $50 to $100 those at most $10 from the
     * close: near expirations, $2.50 program. A class that is in the $1 program too has only
     * multiples of $5 below $50. */
    STRIKE_BOOK_TWO_FIFTY = 4
};

/* The $1, the $0.50 and the $2.50 program. A class is in a program with designation 1 or 2. The
 * grounds of the $1 program are DOLLAR and WING, that of the $0.50 program is HALF, that of the
 * $2.50 program TWO_FIFTY; STANDARD is no program's. */
enum strike_book_program {
    STRIKE_BOOK_DOLLAR_PROGRAM = 1,
    STRIKE_BOOK_HALF_PROGRAM = 2,
    STRIKE_BOOK_TWO_FIFTY_PROGRAM = 3
};

/* How a class stands in a program. Only our own classes count against its cap. */
enum strike_book_designation {
    STRIKE_BOOK_NONE = 0,
    STRIKE_BOOK_OURS = 1,
    STRIKE_BOOK_ANOTHER = 2
};

/* An answer. */
typedef struct strike_book_reply {
    uint32_t number; /* an enum strike_book_number */
    uint32_t value;
} strike_book_reply;

/* An answer with the two counts of a program; both are 0 in a refusal. */
typedef struct strike_book_counter_reply {
    uint32_t number;      /* an enum strike_book_number */
    uint32_t own_classes; /* the classes of our own in the program */
    uint32_t strikes;     /* the standing strikes on the program's grounds */
} strike_book_counter_reply;

/* Whether the run is a book: it has the form above with every field in its limits and counters that
 * are true, at most 150 classes of our own in the $1 program, at most 20 in the $0.50 program and
 * at most 60 in the $2.50 program. */
bool strike_book_is_book(const uint32_t *run, size_t run_length);

/* Makes a fresh book of the run, whatever it holds: current month 0 and no class. It takes 4 words.
 * Refuses NOT_A_BOOK where the length is below 4 or above 65,535. */
strike_book_reply strike_book_fresh(uint32_t *run, size_t run_length);

/* Sets the current month, and removes the strikes of earlier months. The present month again is
 * accepted. Refuses NOT_A_BOOK, BEYOND_LIMITS, MONTH_OUTSIDE. */
strike_book_reply strike_book_set_month(uint32_t *run, size_t run_length, uint32_t month);

/* Opens a class with no close, volume 0, in no program, with no strike. It takes 5 words. Refuses
 * NOT_A_BOOK, BEYOND_LIMITS, ALREADY_OPEN, OUT_OF_WORDS. */
strike_book_reply strike_book_open_class(uint32_t *run, size_t run_length, uint32_t class_number);

/* Sets the close of a class, and its low and its high to the same price. Its strikes stay. Refuses
 * NOT_A_BOOK, BEYOND_LIMITS, NOT_OPEN. */
strike_book_reply strike_book_set_close(uint32_t *run, size_t run_length, uint32_t class_number,
                                        uint32_t close);

/* Sets the low and the high of a class, until its next close. Ranges and the places of wings go by
 * them, a strike being in range where it is at the low or at the high; all else that goes by a
 * price goes by the close. The strikes of the class stay. Refuses NOT_A_BOOK, BEYOND_LIMITS,
 * NOT_OPEN, NO_CLOSE, CLOSE_OUTSIDE. */
strike_book_reply strike_book_set_low_high(uint32_t *run, size_t run_length, uint32_t class_number,
                                           uint32_t low, uint32_t high);

/* Sets the volume of a class. Its strikes stay. Refuses NOT_A_BOOK, BEYOND_LIMITS, NOT_OPEN. */
strike_book_reply strike_book_set_volume(uint32_t *run, size_t run_length, uint32_t class_number,
                                         uint32_t volume);

/* Gives a class a designation in a program. The present one again is accepted without any test. A
 * new OURS needs a close below $50 for the $1 program, or a close of at most $5 and a volume of at
 * least 1,000 for the $0.50 program, and a place under the program's cap; for the $2.50 program it
 * needs that place only, and no close. NONE and ANOTHER need nothing. The strikes of the class
 * stay. Refuses NOT_A_BOOK, BEYOND_LIMITS, NOT_OPEN, and on a new OURS NO_CLOSE, NOT_QUALIFIED,
 * CAP_REACHED. */
strike_book_reply strike_book_designate(uint32_t *run, size_t run_length, uint32_t class_number,
                                        uint32_t program, uint32_t designation);

/* Lists a strike in an expiration, with no open interest. It takes 1 word, and 1 more where it is
 * the first of its expiration. The value is its ground, an enum strike_book_ground. Refuses
 * NOT_A_BOOK, BEYOND_LIMITS, NOT_OPEN, MONTH_OUTSIDE, ALREADY_STANDING, NO_CLOSE, OFF_GRID,
 * OUT_OF_RANGE, TOO_CLOSE, OUT_OF_WORDS. */
strike_book_reply strike_book_list_strike(uint32_t *run, size_t run_length, uint32_t class_number,
                                          uint32_t month, uint32_t strike);

/* Answers what strike_book_list_strike would if words were left, and lists nothing. Never refuses
 * OUT_OF_WORDS. */
strike_book_reply strike_book_judge_strike(const uint32_t *run, size_t run_length,
                                           uint32_t class_number, uint32_t month, uint32_t strike);

/* Delists a strike. Refuses NOT_A_BOOK, BEYOND_LIMITS, NOT_OPEN, NOT_STANDING, OPEN_INTEREST. */
strike_book_reply strike_book_delist_strike(uint32_t *run, size_t run_length,
                                            uint32_t class_number, uint32_t month,
                                            uint32_t strike);

/* Sets both open interest marks of a strike, each 0 or 1. Refuses NOT_A_BOOK, BEYOND_LIMITS,
 * NOT_OPEN, NOT_STANDING. */
strike_book_reply strike_book_mark_strike(uint32_t *run, size_t run_length, uint32_t class_number,
                                          uint32_t month, uint32_t strike, uint32_t put_mark,
                                          uint32_t call_mark);

/* The monthly review of a class: removes each strike on the grounds DOLLAR and WING that is more
 * than $5 from the close, has no open interest, and is above the highest or below the lowest
 * strike with open interest of its expiration (where none has any, every strike counts so). The
 * value is how many strikes it removed. Refuses NOT_A_BOOK, BEYOND_LIMITS, NOT_OPEN, NO_CLOSE. */
strike_book_reply strike_book_review_class(uint32_t *run, size_t run_length,
                                           uint32_t class_number);

/* Writes every strike that strike_book_judge_strike would accept in an expiration to the second
 * run, rising, one word each in half dollars, from its front on. The value is their count; words
 * past it are unchanged. The second run may have any length and hold any words, which are not
 * read. Refuses NOT_A_BOOK, BEYOND_LIMITS, NOT_OPEN, MONTH_OUTSIDE, NO_CLOSE, and OUT_OF_WORDS
 * where the second run is too short: then the value is the length that it needs, and nothing is
 * written. */
strike_book_reply strike_book_list_permitted(const uint32_t *run, size_t run_length,
                                             uint32_t *second, size_t second_length,
                                             uint32_t class_number, uint32_t month);

/* Reads the counter of a program: how many classes of our own it has, and how many strikes stand on
 * its grounds, over all classes and whatever their designations are now. It walks the run to test
 * whether it is a book. Refuses NOT_A_BOOK, BEYOND_LIMITS. */
strike_book_counter_reply strike_book_read_counter(const uint32_t *run, size_t run_length,
                                                   uint32_t program);

/* Answers what strike_book_read_counter does, at a constant cost, where the run is a book: for
 * callers who know that it is, because strike_book_fresh made it or strike_book_is_book found it
 * one, and since then only calls on this book have written it. On any other words it is safe too,
 * and says only what stands there: it refuses NOT_A_BOOK where the run has fewer than 4 words, then
 * BEYOND_LIMITS where the program is none, and else accepts with what the bits of that program's
 * counter word hold, whether they are true or not. */
strike_book_counter_reply strike_book_read_known_counter(const uint32_t *run, size_t run_length,
                                                         uint32_t program);

/* Reads a whole sheet, bytes of text with one call a line, makes the calls in turn, and returns how
 * many lines there are. A line is a letter and its numbers in base ten without leading zeros, with
 * single spaces between, and ends in the byte 10, which the last line may lack:
 *   M month                       set_month        L class month strike             list_strike
 *   O class                       open_class       J class month strike             judge_strike
 *   C class close                 set_close        X class month strike             delist_strike
 *   H class low high              set_low_high     I class month strike put call    mark_strike
 *   V class volume                set_volume       R class                          review_class
 *   D class program designation   designate        A class month                    list_permitted
 * Any other line, an empty one too, is malformed and refused with BEYOND_LIMITS, and the sheet goes
 * on. Each A writes to the second run from its front. The number and the value of each line's
 * answer are written to `answers`, two words a line, as far as it has places; every line is read
 * and its call made whatever that length. Over a run that is no book each line is refused with
 * NOT_A_BOOK. */
size_t strike_book_run_sheet(uint32_t *run, size_t run_length, uint32_t *second,
                             size_t second_length, const uint8_t *sheet, size_t sheet_length,
                             uint32_t *answers, size_t answers_length);

/* Makes a fresh book of each of two runs, whatever they hold, makes one list of calls on each, and
 * says whether the two books are equal: the value is 1 where every word is, and that is so exactly
 * when the same facts stand in both (the current month; each open class with its close, its low,
 * its high, its volume, its designations and its strikes), and 0 where the books differ. `left` is
 * then the book that `calls` leaves, and `right` the book that `others` leaves. The answers of the
 * calls in the lists are not told. Refuses NOT_A_BOOK where the length of a run is below 4 or above
 * 65,535, or the two runs have not the same length; then nothing is written.
 *
 * A list of calls is words, eight a call, for any number of calls:
 *   word 0        the letter of the call, as a sheet writes it, in ASCII: 77 is M
 *   word 1        how many numbers it has
 *   words 2 to 6  the numbers, in the order of a sheet's line; those past their count are ignored
 *   word 7        for A the length of the second run that it is lent; else it is ignored
 * Words left over after the last eight are no call. A letter that is none of the twelve, or one
 * with another count of numbers than its line has, counts as a malformed line: it is refused and
 * changes nothing. A count above 5 is taken for 5.
 *
 * The pool is where the second runs come from: each A writes to the front of the pool, and is lent
 * as many of its words as word 7 says, or all where it has fewer. It may have any length, 0 too,
 * and hold any words, which are not read; `left`, `right` and the reply do not depend on it. */
strike_book_reply strike_book_compare_lists(uint32_t *left, size_t left_length, uint32_t *right,
                                            size_t right_length, uint32_t *pool,
                                            size_t pool_length, const uint32_t *calls,
                                            size_t calls_length, const uint32_t *others,
                                            size_t others_length);

/* The calls over a run that is known to be a book: KNOWN BOOKS says what the caller owes. Each
 * answers and does what the function does that its comment names. */

/* As strike_book_set_month. */
strike_book_reply strike_book_known_set_month(uint32_t *run, size_t run_length, uint32_t month);

/* As strike_book_open_class. */
strike_book_reply strike_book_known_open_class(uint32_t *run, size_t run_length, uint32_t *places,
                                               size_t places_length, uint32_t class_number);

/* As strike_book_set_close. */
strike_book_reply strike_book_known_set_close(uint32_t *run, size_t run_length, uint32_t *places,
                                              size_t places_length, uint32_t class_number,
                                              uint32_t close);

/* As strike_book_set_low_high. */
strike_book_reply strike_book_known_set_low_high(uint32_t *run, size_t run_length,
                                                 uint32_t *places, size_t places_length,
                                                 uint32_t class_number, uint32_t low,
                                                 uint32_t high);

/* As strike_book_set_volume. */
strike_book_reply strike_book_known_set_volume(uint32_t *run, size_t run_length, uint32_t *places,
                                               size_t places_length, uint32_t class_number,
                                               uint32_t volume);

/* As strike_book_designate. */
strike_book_reply strike_book_known_designate(uint32_t *run, size_t run_length, uint32_t *places,
                                              size_t places_length, uint32_t class_number,
                                              uint32_t program, uint32_t designation);

/* As strike_book_list_strike. */
strike_book_reply strike_book_known_list_strike(uint32_t *run, size_t run_length, uint32_t *places,
                                                size_t places_length, uint32_t class_number,
                                                uint32_t month, uint32_t strike);

/* As strike_book_judge_strike. */
strike_book_reply strike_book_known_judge_strike(const uint32_t *run, size_t run_length,
                                                 uint32_t *places, size_t places_length,
                                                 uint32_t class_number, uint32_t month,
                                                 uint32_t strike);

/* As strike_book_delist_strike. */
strike_book_reply strike_book_known_delist_strike(uint32_t *run, size_t run_length,
                                                  uint32_t *places, size_t places_length,
                                                  uint32_t class_number, uint32_t month,
                                                  uint32_t strike);

/* As strike_book_mark_strike. */
strike_book_reply strike_book_known_mark_strike(uint32_t *run, size_t run_length, uint32_t *places,
                                                size_t places_length, uint32_t class_number,
                                                uint32_t month, uint32_t strike, uint32_t put_mark,
                                                uint32_t call_mark);

/* As strike_book_review_class. */
strike_book_reply strike_book_known_review_class(uint32_t *run, size_t run_length,
                                                 uint32_t *places, size_t places_length,
                                                 uint32_t class_number);

/* As strike_book_list_permitted. */
strike_book_reply strike_book_known_list_permitted(const uint32_t *run, size_t run_length,
                                                   uint32_t *second, size_t second_length,
                                                   uint32_t *places, size_t places_length,
                                                   uint32_t class_number, uint32_t month);

/* As strike_book_run_sheet. */
size_t strike_book_known_run_sheet(uint32_t *run, size_t run_length, uint32_t *second,
                                   size_t second_length, uint32_t *places, size_t places_length,
                                   const uint8_t *sheet, size_t sheet_length, uint32_t *answers,
                                   size_t answers_length);

#ifdef __cplusplus
}
#endif

#endif
