/*
 * What the calls of the check are given, and the calls on it. No array here has a length from the header: a wrong one must be
 * found by a wrong answer.
 */
#include <inttypes.h>
#include <stdio.h>
#include <string.h>

#include "oivarnum.h"

static const char plan[] =
    "plan\t1\n"
    "contact\t0\t10000\t1\t2\t1000\n"
    "contact\t4000\t9000\t2\t3\t500\n"
    "contact\t8000\t20000\t1\t3\t100\n"
    "contact\t12000\t30000\t2\t3\t1000\n"
    "contact\t2000\t6000\t1\t4\t2000\n"
    "contact\t3000\t15000\t4\t3\t1000\n"
    "range\t0\t30000\t1\t2\t10\n"
    "range\t0\t30000\t2\t3\t20\n"
    "range\t0\t30000\t1\t3\t1300\n"
    "range\t0\t30000\t1\t4\t5\n";

/* All that a call is given, with more room everywhere than any call needs. */
static struct {
    uint8_t text[70000], out[50000];
    uint64_t contacts[3000], ranges[3000], book[2000], chain[100], walked[4], answer[20];
    uint16_t booked[20000];
    size_t text_length, contacts_length, contact_count, ranges_length, range_count, out_length, book_length, booked_length,
        chain_length, walked_length, answer_length;
    uint64_t ask[6], class_, place;
} given;

#define LENGTH_OF(array) (sizeof(array) / sizeof *(array))
#define PLAN given.contacts, given.contacts_length, given.contact_count, given.ranges, given.ranges_length, given.range_count
#define BOOK given.book, given.book_length, given.booked, given.booked_length
#define ASK given.ask[0], given.ask[1], given.ask[2], given.ask[3], given.ask[4], given.ask[5]
#define CHAIN given.chain, given.chain_length
#define WALKED given.walked, given.walked_length
#define ANSWER given.answer, given.answer_length

static uint64_t read_plan(void)
{
    return oivarnum_read(given.text, given.text_length, given.contacts, given.contacts_length, given.ranges, given.ranges_length,
                         ANSWER);
}

static uint64_t write_plan(void) { return oivarnum_write(PLAN, given.out, given.out_length, ANSWER); }
static uint64_t walk(void) { return oivarnum_walk(PLAN, ASK, WALKED, ANSWER); }
static uint64_t route(void) { return oivarnum_route(PLAN, ASK, CHAIN, ANSWER); }
static uint64_t walk_booked(void) { return oivarnum_walk_booked(PLAN, BOOK, ASK, given.class_, WALKED, ANSWER); }
static uint64_t route_booked(void) { return oivarnum_route_booked(PLAN, BOOK, ASK, given.class_, CHAIN, ANSWER); }
static uint64_t book_route(void) { return oivarnum_book_route(PLAN, BOOK, ASK, given.class_, CHAIN, ANSWER); }
static uint64_t release(void) { return oivarnum_release(PLAN, BOOK, given.place, ANSWER); }

/* The number that all calls return, or one that none returns. */
static uint64_t all_return(uint64_t (*const *calls)(void), size_t count)
{
    uint64_t number = calls[0]();
    for (size_t i = 1; i < count; i++)
        if (calls[i]() != number)
            return UINT64_MAX;
    return number;
}

static void set_ask(uint64_t source, uint64_t destination, uint64_t time, uint64_t size, uint64_t deadline, uint64_t excluded)
{
    const uint64_t ask[6] = {source, destination, time, size, deadline, excluded};
    memcpy(given.ask, ask, sizeof ask);
}

/* A place of the book, counted from 1, open with one byte over contact 5. */
static void open_place(size_t place)
{
    const uint64_t words[4] = {1, 1, 1, 1};
    memcpy(given.book + (place - 1) * 4, words, sizeof words);
    given.booked[(place - 1) * 63] = 5;
}

static void add_text(const char *line)
{
    memcpy(given.text + given.text_length, line, strlen(line));
    given.text_length += strlen(line);
}

/* The plan of the request's cases A to G, read; case E's ask and chain; a book in which the first place is open. */
static void reset(void)
{
    memset(&given, 0, sizeof given);
    add_text(plan);
    given.contacts_length = LENGTH_OF(given.contacts);
    given.ranges_length = LENGTH_OF(given.ranges);
    given.out_length = LENGTH_OF(given.out);
    given.book_length = LENGTH_OF(given.book);
    given.booked_length = LENGTH_OF(given.booked);
    given.chain_length = LENGTH_OF(given.chain);
    given.answer_length = LENGTH_OF(given.answer);
    read_plan();
    given.contact_count = 6;
    given.range_count = 4;
    set_ask(1, 3, 9000, 1000, 30000, 0);
    given.walked[0] = 3;
    given.walked_length = 1;
    given.class_ = 1;
    given.place = 1;
    open_place(1);
    for (size_t i = 0; i < LENGTH_OF(given.answer); i++)
        given.answer[i] = 1000000 + i;
}

/* The longest rows there are, so many of each kind. */
static void set_longest(size_t rows)
{
    for (size_t i = 0; i < rows; i++) {
        uint64_t contact[5] = {1000000000 + 10 * i, 1000000005 + 10 * i, 10, 11, 1000000000};
        uint64_t range[5] = {1000000000 + 10 * i, 1000000005 + 10 * i, 10, 11, 86400000};
        memcpy(given.contacts + 5 * i, contact, sizeof contact);
        memcpy(given.ranges + 5 * i, range, sizeof range);
    }
    given.contact_count = given.range_count = rows;
}

/* A constant's name, and what the header says that it is. */
#define NAMED(constant) #constant, constant
