/* Where the words of an answer stand, and the numbers of the refusals: a call for each, and the two tables. */

/* Calls that are refused. */
static uint64_t long_text(void) { return given.text_length = 65537, read_plan(); }
static uint64_t no_header(void) { return given.text_length = 0, read_plan(); }
static uint64_t line_shape(void) { return add_text("range\n"), read_plan(); }
static uint64_t line_value(void) { return add_text("range\t0\t10\t2\t2\t0\n"), read_plan(); }
static uint64_t after_range(void) { return add_text("contact\t0\t10\t3\t1\t5\n"), read_plan(); }
static uint64_t line_overlap(void) { return add_text("range\t0\t10\t1\t2\t0\n"), read_plan(); }
static uint64_t few_rows(void) { return given.ranges_length = 20, read_plan(); }
static uint64_t no_plan(void) { return given.contact_count = 7, write_plan(); }
static uint64_t short_output(void) { return given.out_length = 6, write_plan(); }
static uint64_t ask_value(void) { return given.ask[0] = 65, route(); }
static uint64_t same_node(void) { return given.ask[0] = 3, route(); }
static uint64_t no_chain(void) { return set_ask(3, 1, 0, 1000, 30000, 0), route(); }
static uint64_t too_late(void) { return set_ask(1, 3, 0, 1000, 6080, 0), route(); }
static uint64_t short_chain(void) { return given.chain_length = 1, route(); }
static uint64_t no_contact(void) { return given.walked[0] = 7, walk(); }
static uint64_t not_joined(void) { return given.walked[0] = 2, walk(); }
static uint64_t excluded_node(void) { return given.ask[5] = 4, walk(); }
static uint64_t not_fitting(void) { return given.ask[2] = 9701, walk(); }
static uint64_t ends_elsewhere(void) { return given.walked[0] = 1, given.ask[2] = 0, walk(); }
static uint64_t bad_class(void) { return given.class_ = 4, route_booked(); }
static uint64_t not_open(void) { return given.place = 2, release(); }

static uint64_t too_many(void)
{
    set_longest(512);
    given.text_length = 0;
    write_plan();
    memcpy(given.text, given.out, 46087);
    given.text_length = 46087;
    add_text("range\t0\t10\t1\t2\t0\n");
    return read_plan();
}

static uint64_t not_ranged(void)
{
    given.ask[2] = 0;
    given.walked[0] = 5;
    given.walked[1] = 6;
    given.walked_length = 2;
    return walk();
}

static uint64_t full_book(void)
{
    for (size_t place = 1; place <= 256; place++)
        open_place(place);
    return book_route();
}

/* What the program says of an ask without fields. */
static const char *said;

static uint64_t ask_shape(void)
{
    given.answer[0] = given.answer[1] = 0;
    sscanf(said, "refused\t%" SCNu64 "\t%" SCNu64, &given.answer[0], &given.answer[1]);
    return given.answer[0];
}

static const struct {
    const char *name;
    size_t at;
    uint64_t (*call)(void);
    uint64_t figure;
} figures[] = {
    {NAMED(OIVARNUM_NUMBER), line_shape, 3},
    {NAMED(OIVARNUM_PLACE), line_shape, 12},
    {NAMED(OIVARNUM_CONTACT_COUNT), read_plan, 6},
    {NAMED(OIVARNUM_RANGE_COUNT), read_plan, 4},
    {NAMED(OIVARNUM_LENGTH), write_plan, sizeof plan - 1},
    {NAMED(OIVARNUM_DELIVERY), walk, 20600},
    {NAMED(OIVARNUM_OPENS), walk, 9000},
    {NAMED(OIVARNUM_LAST_CALL), walk, 9700},
    {NAMED(OIVARNUM_ROOM), walk, 1067},
    {NAMED(OIVARNUM_DELIVERY), route, 20600},
    {NAMED(OIVARNUM_OPENS), route, 9000},
    {NAMED(OIVARNUM_LAST_CALL), route, 9700},
    {NAMED(OIVARNUM_ROOM), route, 1067},
    {NAMED(OIVARNUM_COUNT), route, 1},
    {NAMED(OIVARNUM_DELIVERY), book_route, 20600},
    {NAMED(OIVARNUM_OPENS), book_route, 9000},
    {NAMED(OIVARNUM_LAST_CALL), book_route, 9700},
    {NAMED(OIVARNUM_ROOM), book_route, 1067},
    {NAMED(OIVARNUM_COUNT), book_route, 1},
    {NAMED(OIVARNUM_BOOKED_PLACE), book_route, 2},
};

static const struct {
    const char *name;
    uint64_t number;
    uint64_t (*call)(void);
    uint64_t place;
} refusals[] = {
    {NAMED(OIVARNUM_LONG_TEXT), long_text, 0},
    {NAMED(OIVARNUM_NO_HEADER), no_header, 1},
    {NAMED(OIVARNUM_LINE_SHAPE), line_shape, 12},
    {NAMED(OIVARNUM_LINE_VALUE), line_value, 12},
    {NAMED(OIVARNUM_AFTER_RANGE), after_range, 12},
    {NAMED(OIVARNUM_TOO_MANY), too_many, 1026},
    {NAMED(OIVARNUM_LINE_OVERLAP), line_overlap, 12},
    {NAMED(OIVARNUM_FEW_ROWS), few_rows, 0},
    {NAMED(OIVARNUM_NO_PLAN), no_plan, 0},
    {NAMED(OIVARNUM_SHORT_OUTPUT), short_output, sizeof plan - 1},
    {NAMED(OIVARNUM_ASK_VALUE), ask_value, 0},
    {NAMED(OIVARNUM_SAME_NODE), same_node, 0},
    {NAMED(OIVARNUM_NO_CHAIN), no_chain, 0},
    {NAMED(OIVARNUM_TOO_LATE), too_late, 0},
    {NAMED(OIVARNUM_SHORT_CHAIN), short_chain, 0},
    {NAMED(OIVARNUM_ASK_SHAPE), ask_shape, 1},
    {NAMED(OIVARNUM_NO_CONTACT), no_contact, 1},
    {NAMED(OIVARNUM_NOT_JOINED), not_joined, 1},
    {NAMED(OIVARNUM_EXCLUDED_NODE), excluded_node, 1},
    {NAMED(OIVARNUM_NOT_RANGED), not_ranged, 2},
    {NAMED(OIVARNUM_NOT_FITTING), not_fitting, 1},
    {NAMED(OIVARNUM_ENDS_ELSEWHERE), ends_elsewhere, 1},
    {NAMED(OIVARNUM_BAD_CLASS), bad_class, 0},
    {NAMED(OIVARNUM_FULL_BOOK), full_book, 0},
    {NAMED(OIVARNUM_NOT_OPEN), not_open, 0},
};
