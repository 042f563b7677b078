/*
 * Oivarnum for C (C99): contact plans read and written, a chain of contacts timed, the best chain found and booked.
 *
 * Link target/staticlib/libboard.a, which `bash tools/build` writes. It links into x86-64 programs (System V calling
 * convention, as on Linux) and takes nothing else but memcpy and memset. It has no heap and no state of its own: two threads
 * may call at the same time on memory that is not the same.
 *
 * What each function answers is proved from the code, for every value of the numbers and of the lent memory. No code can check
 * what the caller must keep:
 *
 *   - no pointer is null, also where its length is 0;
 *   - a pointer to words is aligned as uint64_t, one to the numbers `booked` as uint16_t;
 *   - a length is no more than what is lent there: in words for uint64_t, in numbers for uint16_t, in bytes for text and out;
 *   - what a function may change (a pointer without const) overlaps nothing else that is lent to the same call;
 *   - nothing else changes lent memory during the call;
 *   - there is room on the stack: 64 KiB is enough.
 *
 * A plan lives in two tables of words, OIVARNUM_ROW_WORDS a row:
 *
 *   contacts: start, end, from, to, rate     times in milliseconds, nodes 1 to 64, the rate in bytes a second
 *   ranges:   start, end, a, b, light        a below b; the light time in milliseconds holds both ways
 *
 * A contact's number is its row, counted from 1. A chain is a list of contact numbers.
 *
 * Bookings live in a book of OIVARNUM_PLACES places, lent as two slices:
 *
 *   book:     mark, class, consumption, count     OIVARNUM_PLACE_WORDS words a place; the mark is 0 for a free place and 1 for an
 *                                                 open one; a class is 1 (lowest) to 3; the consumption is in bytes
 *   booked:   contact numbers                     OIVARNUM_MOST_CHAIN numbers a place; the first `count` are the booking's
 *
 * A book of zeros is an empty one. A place's number is counted from 1. Of a free place only the mark is looked at, and what is
 * lent behind the places is not looked at. What is left of a contact in a class is its volume, rate times length over 1000
 * rounded down, less the consumption of all open bookings over it in that class or a higher one; a file whose consumption is
 * more does not fit. Bookings count bytes and not seconds: a file is timed as if the pass were free.
 *
 * Each function returns 0, or the number of a refusal, and lays its answer out in the lent words `answer`: the number, the
 * place, then the figures named below. A refusal changes the number and the place alone, and no other lent word or byte. Words
 * behind the figures always stay. Where `answer` has fewer than OIVARNUM_ANSWER_WORDS words (for oivarnum_book_route: fewer than
 * OIVARNUM_BOOKED_WORDS), each function returns OIVARNUM_SHORT_OUTPUT before it looks at anything else, and changes nothing at
 * all.
 */
#ifndef OIVARNUM_H
#define OIVARNUM_H

#include <stddef.h>
#include <stdint.h>

#ifdef __cplusplus
extern "C" {
#endif

/* The words that every lent answer must have at least. */
#define OIVARNUM_ANSWER_WORDS 7
/* The words that an answer lent to oivarnum_book_route must have at least. */
#define OIVARNUM_BOOKED_WORDS 8
/* The words of a row. */
#define OIVARNUM_ROW_WORDS 5
/* The most contacts of a plan, and the most ranges. */
#define OIVARNUM_MOST_ROWS 512
/* The words of a table that oivarnum_read can fill. */
#define OIVARNUM_TABLE_WORDS (OIVARNUM_MOST_ROWS * OIVARNUM_ROW_WORDS)
/* The longest plan text that is read, in bytes. */
#define OIVARNUM_MOST_TEXT 65536
/* The longest text that oivarnum_write writes, in bytes: so much output is always enough. */
#define OIVARNUM_MOST_WRITTEN 46087
/* The places of a chain that oivarnum_route, oivarnum_route_booked and oivarnum_book_route can fill. */
#define OIVARNUM_MOST_CHAIN 63
/* The places of a book. */
#define OIVARNUM_PLACES 256
/* The words of a place in a book. */
#define OIVARNUM_PLACE_WORDS 4
/* The words that a lent book must have at least. */
#define OIVARNUM_BOOK_WORDS (OIVARNUM_PLACES * OIVARNUM_PLACE_WORDS)
/* The contact numbers that must be lent with a book at least. */
#define OIVARNUM_BOOKED_NUMBERS (OIVARNUM_PLACES * OIVARNUM_MOST_CHAIN)

/* What stands where in the words of an answer. */
enum {
    /* every function: 0 or the number of the refusal, and its place */
    OIVARNUM_NUMBER = 0,
    OIVARNUM_PLACE = 1,
    /* oivarnum_read: how many contacts and how many ranges the text has */
    OIVARNUM_CONTACT_COUNT = 2,
    OIVARNUM_RANGE_COUNT = 3,
    /* oivarnum_write: how many bytes the text has */
    OIVARNUM_LENGTH = 2,
    /* the functions that walk, route or book: when the file is ready at the destination; when it starts on the first contact;
     * the greatest time from which the same chain still carries it in time; the greatest size that the same chain carries in
     * time */
    OIVARNUM_DELIVERY = 2,
    OIVARNUM_OPENS = 3,
    OIVARNUM_LAST_CALL = 4,
    OIVARNUM_ROOM = 5,
    /* the functions that route or book: how many contacts the chain has */
    OIVARNUM_COUNT = 6,
    /* oivarnum_book_route: the place in which the route is booked, counted from 1 */
    OIVARNUM_BOOKED_PLACE = 7
};

/* The refusals. The place is 0 where the comment names none. */
enum {
    /* text over OIVARNUM_MOST_TEXT bytes */
    OIVARNUM_LONG_TEXT = 1,
    /* first line is not the header with its line feed; place: 1 */
    OIVARNUM_NO_HEADER = 2,
    /* line's shape: word, field count, blank, non-digit, leading zero, no line feed; place: the line, counted from 1 */
    OIVARNUM_LINE_SHAPE = 3,
    /* a value outside its range, start not below end, nodes equal or out of order; place: the line */
    OIVARNUM_LINE_VALUE = 4,
    /* contact line after a range line; place: the line */
    OIVARNUM_AFTER_RANGE = 5,
    /* 513th contact or range; place: the line */
    OIVARNUM_TOO_MANY = 6,
    /* overlap with an earlier line; place: the line */
    OIVARNUM_LINE_OVERLAP = 7,
    /* a table lent to oivarnum_read has fewer than OIVARNUM_TABLE_WORDS words */
    OIVARNUM_FEW_ROWS = 8,
    /* tables given are no valid plan: a count above 512 or the rows lent, values, overlap. Or the book given is not valid: too
     * short, a mark that is neither 0 nor 1, or an open place with a class that is not 1 to 3, a consumption that is not 1 to
     * 1030000000, a count that is not 1 to 63, or a contact that the plan lacks */
    OIVARNUM_NO_PLAN = 9,
    /* output shorter than the text needs; place: the length needed. Or the lent answer is too short: no place is then written */
    OIVARNUM_SHORT_OUTPUT = 10,
    /* ask: node, time, deadline or size out of range */
    OIVARNUM_ASK_VALUE = 11,
    /* source equals destination */
    OIVARNUM_SAME_NODE = 12,
    /* no allowed chain at all */
    OIVARNUM_NO_CHAIN = 13,
    /* allowed, but not in time */
    OIVARNUM_TOO_LATE = 14,
    /* a chain lent to be filled has fewer than OIVARNUM_MOST_CHAIN places */
    OIVARNUM_SHORT_CHAIN = 15,
    /* ask line's shape: only the program `route` answers it, no function here */
    OIVARNUM_ASK_SHAPE = 17,
    /* 18 to 23, for oivarnum_walk and oivarnum_walk_booked: the chain given is not allowed. The place is the position in it of
     * the first contact at fault, counted from 1; at one position the lowest number is told. */
    /* no such contact */
    OIVARNUM_NO_CONTACT = 18,
    /* contact is not from the node that the one before is to; the first one: not from the source */
    OIVARNUM_NOT_JOINED = 19,
    /* contact goes from the source to an excluded neighbour */
    OIVARNUM_EXCLUDED_NODE = 20,
    /* contact is unranged */
    OIVARNUM_NOT_RANGED = 21,
    /* file does not fit on the contact: in its time, or in what is left of it */
    OIVARNUM_NOT_FITTING = 22,
    /* every contact is good, but the last is not to the destination, or there is none; place: the chain's length */
    OIVARNUM_ENDS_ELSEWHERE = 23,
    /* class is not 1 to 3 */
    OIVARNUM_BAD_CLASS = 24,
    /* all places of the book are open */
    OIVARNUM_FULL_BOOK = 25,
    /* booking to release is not open, or there is no such place */
    OIVARNUM_NOT_OPEN = 26
};

/*
 * Reads a plan text into two lent tables. On success the first rows of the tables are the plan's, and only they change.
 * Refuses with 8, 1, 2, then line by line; in a line 3, 5, 6, 4, 7.
 *
 *   text, text_length               the plan text, and how many bytes it has
 *   contacts, contacts_length       filled with the contacts; how many words are lent, at least OIVARNUM_TABLE_WORDS
 *   ranges, ranges_length           filled with the ranges; how many words are lent, at least OIVARNUM_TABLE_WORDS
 *   answer, answer_length           number, place, OIVARNUM_CONTACT_COUNT, OIVARNUM_RANGE_COUNT; how many words are lent
 */
uint64_t oivarnum_read(const uint8_t *text, size_t text_length,
                       uint64_t *contacts, size_t contacts_length,
                       uint64_t *ranges, size_t ranges_length,
                       uint64_t *answer, size_t answer_length);

/*
 * Writes the text of the plan that two tables hold. On success the first bytes of the output are the text, and only they change;
 * no zero byte follows it. Refuses with 9, 10.
 *
 *   contacts, contacts_length       the table of contacts, and how many words are lent
 *   contact_count                   how many rows of it are the plan's
 *   ranges, ranges_length           the table of ranges, and how many words are lent
 *   range_count                     how many rows of it are the plan's
 *   out, out_length                 filled with the text; how many bytes are lent
 *   answer, answer_length           number, place, OIVARNUM_LENGTH; how many words are lent
 */
uint64_t oivarnum_write(const uint64_t *contacts, size_t contacts_length, size_t contact_count,
                        const uint64_t *ranges, size_t ranges_length, size_t range_count,
                        uint8_t *out, size_t out_length,
                        uint64_t *answer, size_t answer_length);

/*
 * Times the chain given, of any length, for an ask. Refuses with 9, 11, 12, 18 to 23, 14.
 *
 *   contacts to range_count         the plan, as for oivarnum_write
 *   source, destination             from which node to which, 1 to 64
 *   time                            when the file is ready at the source, in milliseconds, 0 to 8589934591
 *   size                            its size in bytes, 1 to 1000000000
 *   deadline                        it must be delivered before this, in milliseconds, 0 to 8589934591
 *   excluded                        neighbours of the source that it may not be sent to: bit n - 1 for node n
 *   chain, chain_length             the contact numbers, and how many there are
 *   answer, answer_length           number, place, OIVARNUM_DELIVERY, OIVARNUM_OPENS, OIVARNUM_LAST_CALL, OIVARNUM_ROOM; how many
 *                                   words are lent
 */
uint64_t oivarnum_walk(const uint64_t *contacts, size_t contacts_length, size_t contact_count,
                       const uint64_t *ranges, size_t ranges_length, size_t range_count,
                       uint64_t source, uint64_t destination, uint64_t time, uint64_t size, uint64_t deadline, uint64_t excluded,
                       const uint64_t *chain, size_t chain_length,
                       uint64_t *answer, size_t answer_length);

/*
 * Finds the best chain for an ask: earliest delivery, then fewest contacts, then the lower contact number at the first
 * difference from the last contact back. On success the first OIVARNUM_COUNT places of the chain are its contact numbers, and
 * only they change. Refuses with 15, 9, 11, 12, 13, 14.
 *
 *   contacts to excluded            the plan and the ask, as for oivarnum_walk
 *   chain, chain_length             filled with the contact numbers; how many places are lent, at least OIVARNUM_MOST_CHAIN
 *   answer, answer_length           number, place, OIVARNUM_DELIVERY, OIVARNUM_OPENS, OIVARNUM_LAST_CALL, OIVARNUM_ROOM,
 *                                   OIVARNUM_COUNT; how many words are lent
 */
uint64_t oivarnum_route(const uint64_t *contacts, size_t contacts_length, size_t contact_count,
                        const uint64_t *ranges, size_t ranges_length, size_t range_count,
                        uint64_t source, uint64_t destination, uint64_t time, uint64_t size, uint64_t deadline, uint64_t excluded,
                        uint64_t *chain, size_t chain_length,
                        uint64_t *answer, size_t answer_length);

/*
 * Times the chain given, of any length, for an ask of a class, over a plan with its book. On an empty book the figures are those
 * of oivarnum_walk. Refuses with 9, 11, 24, 12, 18 to 23, 14.
 *
 *   contacts to range_count         the plan, as for oivarnum_write
 *   book, book_length               the places of the book; how many words are lent, at least OIVARNUM_BOOK_WORDS
 *   booked, booked_length           their contact numbers; how many are lent, at least OIVARNUM_BOOKED_NUMBERS
 *   source to excluded              the ask, as for oivarnum_walk
 *   class_                          its class, 1 to 3
 *   chain, chain_length             the contact numbers, and how many there are
 *   answer, answer_length           as for oivarnum_walk
 */
uint64_t oivarnum_walk_booked(const uint64_t *contacts, size_t contacts_length, size_t contact_count,
                              const uint64_t *ranges, size_t ranges_length, size_t range_count,
                              const uint64_t *book, size_t book_length,
                              const uint16_t *booked, size_t booked_length,
                              uint64_t source, uint64_t destination, uint64_t time, uint64_t size, uint64_t deadline,
                              uint64_t excluded, uint64_t class_,
                              const uint64_t *chain, size_t chain_length,
                              uint64_t *answer, size_t answer_length);

/*
 * Finds the best chain, as oivarnum_route does, for an ask of a class over a plan with its book. On an empty book it is that of
 * oivarnum_route. On success the first OIVARNUM_COUNT places of the chain are its contact numbers, and only they change. Refuses
 * with 15, 9, 11, 24, 12, 13, 14.
 *
 *   contacts to class_              the plan, the book and the ask, as for oivarnum_walk_booked
 *   chain, chain_length             filled with the contact numbers; how many places are lent, at least OIVARNUM_MOST_CHAIN
 *   answer, answer_length           as for oivarnum_route
 */
uint64_t oivarnum_route_booked(const uint64_t *contacts, size_t contacts_length, size_t contact_count,
                               const uint64_t *ranges, size_t ranges_length, size_t range_count,
                               const uint64_t *book, size_t book_length,
                               const uint16_t *booked, size_t booked_length,
                               uint64_t source, uint64_t destination, uint64_t time, uint64_t size, uint64_t deadline,
                               uint64_t excluded, uint64_t class_,
                               uint64_t *chain, size_t chain_length,
                               uint64_t *answer, size_t answer_length);

/*
 * Finds the best chain as oivarnum_route_booked does and books it in the lowest free place. The figures are those on the book
 * before. On success the first OIVARNUM_COUNT places of the chain are its contact numbers; the place's words are 1, the class,
 * the file's consumption and the count, and the first of its contact numbers are the chain's; nothing else changes. Refuses with
 * 15, 9, 11, 24, 12, 13, 14, 25.
 *
 *   contacts to range_count         the plan, as for oivarnum_write
 *   book, book_length               the places of the book; how many words are lent, at least OIVARNUM_BOOK_WORDS
 *   booked, booked_length           their contact numbers; how many are lent, at least OIVARNUM_BOOKED_NUMBERS
 *   source to class_                the ask, as for oivarnum_walk_booked
 *   chain, chain_length             filled with the contact numbers; how many places are lent, at least OIVARNUM_MOST_CHAIN
 *   answer, answer_length           number, place, OIVARNUM_DELIVERY, OIVARNUM_OPENS, OIVARNUM_LAST_CALL, OIVARNUM_ROOM,
 *                                   OIVARNUM_COUNT, OIVARNUM_BOOKED_PLACE; how many words are lent, at least
 *                                   OIVARNUM_BOOKED_WORDS
 */
uint64_t oivarnum_book_route(const uint64_t *contacts, size_t contacts_length, size_t contact_count,
                             const uint64_t *ranges, size_t ranges_length, size_t range_count,
                             uint64_t *book, size_t book_length,
                             uint16_t *booked, size_t booked_length,
                             uint64_t source, uint64_t destination, uint64_t time, uint64_t size, uint64_t deadline,
                             uint64_t excluded, uint64_t class_,
                             uint64_t *chain, size_t chain_length,
                             uint64_t *answer, size_t answer_length);

/*
 * Releases a booking: its place is free again, and what it took is left again. On success only the place's mark changes. Refuses
 * with 9, 26.
 *
 *   contacts to range_count         the plan, as for oivarnum_write
 *   book, book_length               the places of the book; how many words are lent, at least OIVARNUM_BOOK_WORDS
 *   booked, booked_length           their contact numbers; how many are lent, at least OIVARNUM_BOOKED_NUMBERS
 *   place                           the booking's place, as oivarnum_book_route answered it
 *   answer, answer_length           number, place; how many words are lent
 */
uint64_t oivarnum_release(const uint64_t *contacts, size_t contacts_length, size_t contact_count,
                          const uint64_t *ranges, size_t ranges_length, size_t range_count,
                          uint64_t *book, size_t book_length,
                          const uint16_t *booked, size_t booked_length,
                          uint64_t place,
                          uint64_t *answer, size_t answer_length);

#ifdef __cplusplus
}
#endif

#endif
