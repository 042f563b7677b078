/*
 * Holds every constant of include/oivarnum.h, and every range of values that its comments name, against what the archive does. A
 * table each for the kinds:
 *
 *   figures     where a word stands in an answer: a call whose figures all differ, and the figure that must stand there
 *   refusals    the number of a refusal: a call that is refused so, and its place
 *   limits      a size: a call that is good with exactly so much, and is refused with one less or one more
 *   ranges      a range: a call that is good at both ends, and is refused past them
 *
 *     check names       prints the constants and the ranges that have a row
 *     check SAID        checks all; SAID is what the program `route` says of an ask without fields, since no function answers 17
 *
 * tools/header/run runs it.
 */
#include "given.h"

#include "numbers.h"
#include "sizes.h"

static int wrong;

static void hold(const char *name, const char *what, uint64_t found, uint64_t wanted)
{
    if (found != wanted) {
        printf("%s: %s is %" PRIu64 ", not %" PRIu64 "\n", name, what, found, wanted);
        wrong++;
    }
}

static void check_figures(void)
{
    for (size_t i = 0; i < LENGTH_OF(figures); i++) {
        reset();
        figures[i].call();
        if (figures[i].at >= LENGTH_OF(given.answer))
            hold(figures[i].name, "the place", figures[i].at, 0);
        else
            hold(figures[i].name, "the figure there", given.answer[figures[i].at], figures[i].figure);
    }
}

static void check_refusals(void)
{
    for (size_t i = 0; i < LENGTH_OF(refusals); i++) {
        reset();
        hold(refusals[i].name, "the number", refusals[i].number, refusals[i].call());
        hold(refusals[i].name, "the place", given.answer[1], refusals[i].place);
    }
}

static void check_limits(void)
{
    for (size_t i = 0; i < LENGTH_OF(limits); i++) {
        reset();
        hold(limits[i].name, "what is returned at the limit", limits[i].call(limits[i].value), 0);
        reset();
        hold(limits[i].name, "what is returned past it", limits[i].call(limits[i].value + (size_t)limits[i].past),
             limits[i].number);
    }
}

static void check_ranges(void)
{
    for (size_t i = 0; i < LENGTH_OF(ranges); i++) {
        char name[50];
        snprintf(name, sizeof name, "%" PRIu64 " to %" PRIu64, ranges[i].least, ranges[i].most);
        const uint64_t values[4] = {ranges[i].least, ranges[i].most, ranges[i].most + 1, ranges[i].least - 1};
        for (size_t k = 0; k < 4; k++) {
            reset();
            hold(name, k < 2 ? "what is returned at an end" : "what is returned past it", ranges[i].call(values[k]),
                 k < 2 ? 0 : ranges[i].number);
        }
    }
}

static void print_names(void)
{
    for (size_t i = 0; i < LENGTH_OF(figures); i++)
        puts(figures[i].name);
    for (size_t i = 0; i < LENGTH_OF(refusals); i++)
        puts(refusals[i].name);
    for (size_t i = 0; i < LENGTH_OF(limits); i++)
        puts(limits[i].name);
    for (size_t i = 0; i < LENGTH_OF(ranges); i++)
        printf("%" PRIu64 " to %" PRIu64 "\n", ranges[i].least, ranges[i].most);
    printf("%d to %d\n", OIVARNUM_NO_CONTACT, OIVARNUM_ENDS_ELSEWHERE);
}

int main(int argc, char **argv)
{
    if (argc != 2)
        return 2;
    if (strcmp(argv[1], "names") == 0) {
        print_names();
        return 0;
    }
    said = argv[1];
    check_figures();
    check_refusals();
    check_limits();
    check_ranges();
    return wrong != 0;
}
