/* Makes document 01's sample calls, and prints what the sheet program prints for them, then number,
 * own classes and strikes of the $1 program's counter before the first listing and after the last.
 * Then makes them as two lists, one without its refusals: both leave the same book, or the exit
 * is 1. At last judges, lists and delists on the book without a test of its words, and prints these
 * answers too: the last call leaves the same book again, or the exit is 1. */
#include <inttypes.h>
#include <stdio.h>
#include <string.h>

#include "strikebook.h"

static uint32_t book[4096];
static uint32_t second[512];

/* Eight words a call: letter, how many numbers, five numbers, length of the second run. */
static const uint32_t calls[64] = {
    'M', 1, 4, 0,   0,  0, 0, 0,   'O', 1, 7, 0, 0,  0, 0, 0,
    'C', 2, 7, 200, 0,  0, 0, 0,   'D', 3, 7, 1, 1,  0, 0, 0,
    'A', 2, 7, 5,   0,  0, 0, 512, 'L', 3, 7, 5, 14, 0, 0, 0,
    'L', 3, 7, 5,   16, 0, 0, 0,   'L', 3, 7, 5, 14, 0, 0, 0,
};
static uint32_t left[4096];
static uint32_t right[4096];

/* Where calls on the known book remember what they found. */
static uint32_t places[1024];

static void print_number(strike_book_reply reply)
{
    printf("%" PRIu32 "\n", reply.number);
}

static void print_ground(strike_book_reply reply)
{
    if (reply.number == STRIKE_BOOK_ACCEPTED)
        printf("%" PRIu32 " %" PRIu32 "\n", reply.number, reply.value);
    else
        print_number(reply);
}

static void print_permitted(strike_book_reply reply)
{
    if (reply.number != STRIKE_BOOK_ACCEPTED && reply.number != STRIKE_BOOK_OUT_OF_WORDS) {
        print_number(reply);
        return;
    }
    printf("%" PRIu32 " %" PRIu32, reply.number, reply.value);
    if (reply.number == STRIKE_BOOK_ACCEPTED)
        for (uint32_t i = 0; i < reply.value; i++)
            printf(" %" PRIu32, second[i]);
    printf("\n");
}

static void print_counter(strike_book_counter_reply reply)
{
    printf("%" PRIu32 " %" PRIu32 " %" PRIu32 "\n", reply.number, reply.own_classes, reply.strikes);
}

static bool same_book_by_lists(void)
{
    strike_book_reply reply =
        strike_book_compare_lists(left, 4096, right, 4096, second, 512, calls, 64, calls, 48);
    return reply.number == STRIKE_BOOK_ACCEPTED && reply.value == 1
        && memcmp(left, book, sizeof book) == 0;
}

/* The book is known to be one: strike_book_fresh made it, and only calls on it have written it. */
static void print_known(void)
{
    print_ground(strike_book_known_judge_strike(book, 4096, places, 1024, 7, 5, 12));
    print_ground(strike_book_known_list_strike(book, 4096, places, 1024, 7, 5, 12));
    /* With no places: any pointer that is not null and is aligned will do. */
    print_number(strike_book_known_delist_strike(book, 4096, places, 0, 7, 5, 12));
}

int main(void)
{
    if (strike_book_fresh(book, 4096).number != STRIKE_BOOK_ACCEPTED)
        return 1;
    print_number(strike_book_set_month(book, 4096, 4));
    print_number(strike_book_open_class(book, 4096, 7));
    print_number(strike_book_set_close(book, 4096, 7, 200));
    print_number(strike_book_designate(book, 4096, 7, STRIKE_BOOK_DOLLAR_PROGRAM,
                                       STRIKE_BOOK_OURS));
    print_permitted(strike_book_list_permitted(book, 4096, second, 512, 7, 5));
    strike_book_counter_reply before =
        strike_book_read_counter(book, 4096, STRIKE_BOOK_DOLLAR_PROGRAM);
    print_ground(strike_book_list_strike(book, 4096, 7, 5, 14));
    print_ground(strike_book_list_strike(book, 4096, 7, 5, 16));
    print_ground(strike_book_list_strike(book, 4096, 7, 5, 14));
    print_counter(before);
    /* The calls have kept it a book, so it needs no test. */
    print_counter(strike_book_read_known_counter(book, 4096, STRIKE_BOOK_DOLLAR_PROGRAM));
    if (!same_book_by_lists())
        return 1;
    print_known();
    return memcmp(left, book, sizeof book) == 0 ? 0 : 1;
}
