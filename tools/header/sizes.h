/* The sizes and the ranges of values: a call for each that is good at the limit and refused past it, and the two tables. */

/* Calls that are good with exactly so much. */
static uint64_t answer_words(size_t n)
{
    uint64_t (*const calls[])(void) = {read_plan, write_plan, walk, route, walk_booked, route_booked, release};
    given.answer_length = n;
    return all_return(calls, LENGTH_OF(calls));
}

static uint64_t booked_words(size_t n) { return given.answer_length = n, book_route(); }

/* The plan's six contacts and four ranges, in rows of so many words. */
static uint64_t row_words(size_t n)
{
    uint64_t number = (given.contacts_length = 6 * n, write_plan());
    given.contacts_length = LENGTH_OF(given.contacts);
    given.ranges_length = 4 * n;
    return write_plan() == number ? number : UINT64_MAX;
}

static uint64_t most_rows(size_t n)
{
    set_longest(n);
    given.range_count = 0;
    uint64_t number = write_plan();
    given.range_count = n;
    given.contact_count = 0;
    return write_plan() == number ? number : UINT64_MAX;
}

static uint64_t table_words(size_t n)
{
    given.contacts_length = n;
    uint64_t number = read_plan();
    given.contacts_length = LENGTH_OF(given.contacts);
    given.ranges_length = n;
    return read_plan() == number ? number : UINT64_MAX;
}

/* No plan has the longest text; it is refused for another reason, unless it is too long. */
static uint64_t most_text(size_t n)
{
    given.text_length = n;
    return read_plan() == OIVARNUM_LONG_TEXT ? OIVARNUM_LONG_TEXT : 0;
}

static uint64_t most_written(size_t n)
{
    set_longest(512);
    given.out_length = n;
    return write_plan();
}

static uint64_t most_chain(size_t n)
{
    uint64_t (*const calls[])(void) = {route, route_booked, book_route};
    given.chain_length = n;
    return all_return(calls, LENGTH_OF(calls));
}

/* A booking in the last of so many places. */
static uint64_t places(size_t n)
{
    for (size_t place = 1; place < n; place++)
        open_place(place);
    return book_route();
}

/* The second place open and released, where a place has so many words. */
static uint64_t place_words(size_t n)
{
    const uint64_t words[4] = {1, 1, 1, 1};
    memset(given.book, 0, sizeof given.book);
    memcpy(given.book + n, words, sizeof words);
    given.booked[63] = 5;
    given.place = 2;
    return release();
}

static uint64_t over_book(void)
{
    uint64_t (*const calls[])(void) = {walk_booked, route_booked, book_route, release};
    return all_return(calls, LENGTH_OF(calls));
}

static uint64_t book_words(size_t n) { return given.book_length = n, over_book(); }
static uint64_t booked_numbers(size_t n) { return given.booked_length = n, over_book(); }

/* Calls that are refused with a number where a value is out of its range; 0 where they are not, whatever else they say. */
static uint64_t only(uint64_t number, uint64_t returned) { return returned == number ? number : 0; }

static uint64_t node(uint64_t n)
{
    set_ask(n, n == 1 ? 2 : 1, 0, 1, 30000, 0);
    uint64_t number = only(11, route());
    set_ask(n == 1 ? 2 : 1, n, 0, 1, 30000, 0);
    return only(11, route()) == number ? number : UINT64_MAX;
}

static uint64_t moment(uint64_t n)
{
    uint64_t number = (given.ask[2] = n, only(11, route()));
    given.ask[2] = 9000;
    given.ask[4] = n;
    return only(11, route()) == number ? number : UINT64_MAX;
}

static uint64_t size(uint64_t n) { return given.ask[3] = n, only(11, route()); }

/* A class that is asked for, and that of an open place. */
static uint64_t class_of(uint64_t n)
{
    uint64_t asked = (given.class_ = n, only(24, route_booked()));
    given.class_ = 1;
    given.book[1] = n;
    return (only(9, route_booked()) == 0) == (asked == 0) ? asked : UINT64_MAX;
}

static uint64_t consumption(uint64_t n) { return given.book[2] = n, only(9, release()); }

static uint64_t count(uint64_t n)
{
    given.book[3] = n;
    for (size_t i = 0; i < n && i < LENGTH_OF(given.booked); i++)
        given.booked[i] = 5;
    return only(9, release());
}

static const struct {
    const char *name;
    size_t value;
    uint64_t (*call)(size_t);
    int past;
    uint64_t number;
} limits[] = {
    {NAMED(OIVARNUM_ANSWER_WORDS), answer_words, -1, 10},
    {NAMED(OIVARNUM_BOOKED_WORDS), booked_words, -1, 10},
    {NAMED(OIVARNUM_ROW_WORDS), row_words, -1, 9},
    {NAMED(OIVARNUM_MOST_ROWS), most_rows, 1, 9},
    {NAMED(OIVARNUM_TABLE_WORDS), table_words, -1, 8},
    {NAMED(OIVARNUM_MOST_TEXT), most_text, 1, 1},
    {NAMED(OIVARNUM_MOST_WRITTEN), most_written, -1, 10},
    {NAMED(OIVARNUM_MOST_CHAIN), most_chain, -1, 15},
    {NAMED(OIVARNUM_PLACES), places, 1, 25},
    {NAMED(OIVARNUM_PLACE_WORDS), place_words, 1, 9},
    {NAMED(OIVARNUM_BOOK_WORDS), book_words, -1, 9},
    {NAMED(OIVARNUM_BOOKED_NUMBERS), booked_numbers, -1, 9},
};

/* The ranges that the header's comments name. */
static const struct {
    uint64_t least, most;
    uint64_t (*call)(uint64_t);
    uint64_t number;
} ranges[] = {
    {1, 64, node, 11},         {0, 8589934591, moment, 11},       {1, 1000000000, size, 11},
    {1, 3, class_of, 24},      {1, 1030000000, consumption, 9},   {1, 63, count, 9},
};
