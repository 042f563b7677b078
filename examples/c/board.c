/*
 * The calls from C. Reads a plan, from the file named as the first argument or else the one below, and answers asks over it;
 * each chain found is walked again. The first ask's route is then booked in an empty book, walked over what is left, and
 * released, twice, of which the second is refused with 26. Then the plan is written back, and last it is written with one contact
 * more counted than is lent, which is refused with 9. The asks are those of the request's cases A to G, or one given as six
 * numbers after the file: source destination time size deadline excluded. It ends with 1 where two answers that must agree do
 * not.
 *
 *     bash tools/build
 *     gcc -std=c99 -Wall -Wextra -I include -o target/board_example examples/c/board.c target/staticlib/libboard.a
 *     target/board_example
 */
#include <inttypes.h>
#include <stdio.h>
#include <stdlib.h>
#include <string.h>

#include "oivarnum.h"

static const char plan[] =
    "plan\t1\n"
    "contact\t0\t10000\t1\t2\t1000\n"
    "contact\t4000\t9000\t2\t3\t500\n"
    "contact\t8000\t20000\t1\t3\t100\n"
    "contact\t12000\t30000\t2\t3\t1000\n"
    "contact\t2000\t6000\t1\t4\t2000\n"
    "contact\t3000\t15000\t4\t3\t1000\n"
    "range\t0\t30000\t1\t2\t10\n"
    "range\t0\t30000\t2\t3\t20\n"
    "range\t0\t30000\t1\t3\t1300\n"
    "range\t0\t30000\t1\t4\t5\n";

/* An ask, in the order of an ask line. */
struct ask {
    uint64_t source, destination, time, size, deadline, excluded;
};

static const struct ask cases[] = {
    {1, 3, 0, 1000, 30000, 0},    {1, 3, 0, 1000, 30000, 2}, {1, 3, 0, 1000, 6081, 0}, {1, 3, 0, 1000, 6080, 0},
    {1, 3, 9000, 1000, 30000, 0}, {3, 1, 0, 1000, 30000, 0}, {1, 1, 0, 1000, 30000, 0},
};

/* One byte more than a text may have, so that one that is too long is seen. */
static uint8_t text[OIVARNUM_MOST_TEXT + 1];
static uint8_t out[OIVARNUM_MOST_WRITTEN];
static uint64_t contacts[OIVARNUM_TABLE_WORDS];
static uint64_t ranges[OIVARNUM_TABLE_WORDS];
static size_t contact_count, range_count;
/* All zeros: an empty book. */
static uint64_t book[OIVARNUM_BOOK_WORDS];
static uint16_t booked[OIVARNUM_BOOKED_NUMBERS];

static void fail(const char *what)
{
    fprintf(stderr, "board: %s\n", what);
    exit(1);
}

static void refused(const uint64_t *answer)
{
    printf("refused %" PRIu64 " %" PRIu64 "\n", answer[OIVARNUM_NUMBER], answer[OIVARNUM_PLACE]);
}

/* The figures of a route, how many contacts it has, and their numbers. */
static void print_route(const char *word, const uint64_t *answer, const uint64_t *chain)
{
    printf("%s", word);
    for (size_t i = OIVARNUM_DELIVERY; i <= OIVARNUM_COUNT; i++)
        printf(" %" PRIu64, answer[i]);
    for (size_t i = 0; i < answer[OIVARNUM_COUNT]; i++)
        printf(" %" PRIu64, chain[i]);
    printf("\n");
}

/* The text of the plan, and its length. */
static size_t load(const char *path)
{
    size_t length = sizeof plan - 1;
    if (path == NULL) {
        memcpy(text, plan, length);
        return length;
    }
    FILE *file = fopen(path, "rb");
    if (file == NULL)
        fail("the plan cannot be opened");
    length = fread(text, 1, sizeof text, file);
    fclose(file);
    return length;
}

/* Finds the best chain, prints its figures and its contacts, and walks it. */
static void answer_ask(const struct ask *ask)
{
    uint64_t chain[OIVARNUM_MOST_CHAIN];
    uint64_t best[OIVARNUM_ANSWER_WORDS];
    uint64_t walked[OIVARNUM_ANSWER_WORDS];
    if (oivarnum_route(contacts, OIVARNUM_TABLE_WORDS, contact_count, ranges, OIVARNUM_TABLE_WORDS, range_count, ask->source,
                       ask->destination, ask->time, ask->size, ask->deadline, ask->excluded, chain, OIVARNUM_MOST_CHAIN, best,
                       OIVARNUM_ANSWER_WORDS) != 0) {
        refused(best);
        return;
    }
    print_route("route", best, chain);
    if (oivarnum_walk(contacts, OIVARNUM_TABLE_WORDS, contact_count, ranges, OIVARNUM_TABLE_WORDS, range_count, ask->source,
                      ask->destination, ask->time, ask->size, ask->deadline, ask->excluded, chain, (size_t)best[OIVARNUM_COUNT],
                      walked, OIVARNUM_ANSWER_WORDS) != 0 ||
        memcmp(walked, best, OIVARNUM_COUNT * sizeof *best) != 0)
        fail("walk and route do not agree");
}

/* Walks a chain over what is left in class 1, and prints the room. */
static void walk_again(const struct ask *ask, const uint64_t *chain, size_t count)
{
    uint64_t walked[OIVARNUM_ANSWER_WORDS];
    if (oivarnum_walk_booked(contacts, OIVARNUM_TABLE_WORDS, contact_count, ranges, OIVARNUM_TABLE_WORDS, range_count, book,
                             OIVARNUM_BOOK_WORDS, booked, OIVARNUM_BOOKED_NUMBERS, ask->source, ask->destination, ask->time,
                             ask->size, ask->deadline, ask->excluded, 1, chain, count, walked, OIVARNUM_ANSWER_WORDS) != 0)
        refused(walked);
    else
        printf("room %" PRIu64 "\n", walked[OIVARNUM_ROOM]);
}

/* Releases what is booked in a place, and prints that or the refusal. */
static void release(uint64_t place)
{
    uint64_t answer[OIVARNUM_ANSWER_WORDS];
    if (oivarnum_release(contacts, OIVARNUM_TABLE_WORDS, contact_count, ranges, OIVARNUM_TABLE_WORDS, range_count, book,
                         OIVARNUM_BOOK_WORDS, booked, OIVARNUM_BOOKED_NUMBERS, place, answer, OIVARNUM_ANSWER_WORDS) != 0)
        refused(answer);
    else
        printf("release %" PRIu64 "\n", place);
}

/* Books the best chain in class 1 and prints it with its place, walks it again, and releases it twice. */
static void book_ask(const struct ask *ask)
{
    uint64_t chain[OIVARNUM_MOST_CHAIN];
    uint64_t answer[OIVARNUM_BOOKED_WORDS];
    if (oivarnum_book_route(contacts, OIVARNUM_TABLE_WORDS, contact_count, ranges, OIVARNUM_TABLE_WORDS, range_count, book,
                            OIVARNUM_BOOK_WORDS, booked, OIVARNUM_BOOKED_NUMBERS, ask->source, ask->destination, ask->time,
                            ask->size, ask->deadline, ask->excluded, 1, chain, OIVARNUM_MOST_CHAIN, answer,
                            OIVARNUM_BOOKED_WORDS) != 0) {
        refused(answer);
        return;
    }
    print_route("book", answer, chain);
    printf("place %" PRIu64 "\n", answer[OIVARNUM_BOOKED_PLACE]);
    walk_again(ask, chain, (size_t)answer[OIVARNUM_COUNT]);
    release(answer[OIVARNUM_BOOKED_PLACE]);
    release(answer[OIVARNUM_BOOKED_PLACE]);
}

/* Writes the plan back and compares it with the text that was read. */
static void write_back(size_t length)
{
    uint64_t answer[OIVARNUM_ANSWER_WORDS];
    if (oivarnum_write(contacts, OIVARNUM_TABLE_WORDS, contact_count, ranges, OIVARNUM_TABLE_WORDS, range_count, out, sizeof out,
                       answer, OIVARNUM_ANSWER_WORDS) != 0 ||
        answer[OIVARNUM_LENGTH] != length || memcmp(out, text, length) != 0)
        fail("the text written is not the text read");
    printf("write %" PRIu64 "\n", answer[OIVARNUM_LENGTH]);
}

/* Writes with one contact more counted than is lent, and prints the refusal. */
static void count_too_much(void)
{
    uint64_t answer[OIVARNUM_ANSWER_WORDS];
    size_t rows = contact_count == 0 ? 0 : contact_count - 1;
    oivarnum_write(contacts, rows * OIVARNUM_ROW_WORDS, rows + 1, ranges, OIVARNUM_TABLE_WORDS, range_count, out, sizeof out,
                   answer, OIVARNUM_ANSWER_WORDS);
    refused(answer);
}

int main(int argc, char **argv)
{
    uint64_t answer[OIVARNUM_ANSWER_WORDS];
    if (argc != 1 && argc != 2 && argc != 8)
        fail("usage: board [PLAN [SOURCE DESTINATION TIME SIZE DEADLINE EXCLUDED]]");
    size_t length = load(argc > 1 ? argv[1] : NULL);
    if (oivarnum_read(text, length, contacts, OIVARNUM_TABLE_WORDS, ranges, OIVARNUM_TABLE_WORDS, answer,
                      OIVARNUM_ANSWER_WORDS) != 0) {
        refused(answer);
        return 0;
    }
    contact_count = (size_t)answer[OIVARNUM_CONTACT_COUNT];
    range_count = (size_t)answer[OIVARNUM_RANGE_COUNT];
    printf("read %zu %zu\n", contact_count, range_count);
    if (argc == 8) {
        uint64_t given[6];
        for (size_t i = 0; i < 6; i++)
            given[i] = strtoull(argv[2 + i], NULL, 10);
        struct ask ask = {given[0], given[1], given[2], given[3], given[4], given[5]};
        answer_ask(&ask);
        book_ask(&ask);
    } else {
        for (size_t i = 0; i < sizeof cases / sizeof *cases; i++)
            answer_ask(&cases[i]);
        book_ask(&cases[0]);
    }
    write_back(length);
    count_too_much();
    return 0;
}
