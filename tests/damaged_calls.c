/* Damaged calls: each of the ten functions gets short slices, NULL, absurd numbers and damaged texts. A damaged call has to be
 * refused with the number and the place that dagglehurst.h says, and has to leave all lent memory as it was.
 *
 * A call is described by its slices. Each slice is lent from a block of its own that is filled with a pattern. After the call the
 * whole block is compared with what it has to be, byte for byte. Every call is made twice:
 *   - with canaries before and behind each slice, so that a byte written outside is seen;
 *   - with blocks of exactly the slice's size and NULL for an empty slice, so that valgrind sees a byte read outside.
 */
#include <stdio.h>
#include <stdlib.h>
#include <string.h>

#include "dagglehurst.h"

static unsigned long checks, failures;

/* Counts a condition, and reports it where it does not hold. */
#define EXPECT(condition, ...)                                                                                                   \
    do {                                                                                                                         \
        checks++;                                                                                                                \
        if (!(condition)) {                                                                                                      \
            failures++;                                                                                                          \
            printf("%s:%d: ", __FILE__, __LINE__);                                                                               \
            printf(__VA_ARGS__);                                                                                                 \
            printf(" (%s)\n", #condition);                                                                                       \
        }                                                                                                                        \
    } while (0)

#define COUNT(array) (sizeof(array) / sizeof((array)[0]))

/* ---- Calls ---- */

/* From WRITE on they are lent a grid. */
enum function { READ, FINISH, WRITE, CHECK, TO83, TO27, CONVERT, LIST, BEGIN, FEED, FUNCTIONS };

static const char *const names[FUNCTIONS] = {"read", "finish", "write", "check", "to83", "to27", "convert", "list", "begin", "feed"};

/* What a call lends. INPUT is the text, the points, the requests or a piece of them; OUTPUT the room, the answer or the answers. */
enum { HEADER, LAT, LON, WAYS, INPUT, OUTPUT, REFUSALS, LINE, STATE, SLICES };

static const char *const slice_names[SLICES] = {"header", "lat", "lon", "ways", "input", "output", "refusals", "line", "state"};

struct slice {
    size_t element, length; /* bytes of an element, number of elements */
    const void *before;     /* what it holds; NULL: the pattern */
    const void *after;      /* what an answered call writes to its front; NULL: nothing */
    size_t after_length;    /* elements of `after` */
};

struct call {
    enum function function;
    struct slice slices[SLICES];
    int64_t north, east;
    uint64_t value; /* what the undamaged call answers */
};

/* A slice in memory: its block, and what the block has to hold afterwards. */
struct lent {
    unsigned char *block, *expected;
    size_t bytes, length;
    void *start;
};

static void *allocate(size_t bytes) {
    void *memory = malloc(bytes > 0 ? bytes : 1);
    if (memory == NULL) {
        perror("damaged_calls");
        exit(2);
    }
    return memory;
}

static void copy(unsigned char *to, const void *from, size_t bytes) {
    if (from != NULL && bytes > 0)
        memcpy(to, from, bytes);
}

/* `canary` is the number of bytes before and behind the slice. */
static struct lent lend(const struct slice *slice, size_t canary) {
    size_t inside = slice->element * slice->length;
    struct lent lent = {.bytes = canary + inside + canary, .length = slice->length};
    lent.block = allocate(lent.bytes);
    lent.expected = allocate(lent.bytes);
    for (size_t i = 0; i < lent.bytes; i++)
        lent.block[i] = (unsigned char)(37 * i + 11);
    copy(lent.block + canary, slice->before, inside);
    memcpy(lent.expected, lent.block, lent.bytes);
    copy(lent.expected + canary, slice->after, slice->element * slice->after_length);
    lent.start = lent.bytes > 0 ? lent.block + canary : NULL;
    return lent;
}

#define SLICE(which) lent[which].start, lent[which].length
#define GRID SLICE(HEADER), SLICE(LAT), SLICE(LON)

static uint64_t make(const struct call *call, const struct lent *lent) {
    switch (call->function) {
    case READ:
        return dagglehurst_read(SLICE(INPUT), GRID);
    case FINISH:
        return dagglehurst_finish(SLICE(LINE), SLICE(STATE), SLICE(OUTPUT));
    case WRITE:
        return dagglehurst_write(GRID, SLICE(OUTPUT));
    case CHECK:
        return dagglehurst_check(GRID);
    case TO83:
        return dagglehurst_to83(GRID, call->north, call->east, SLICE(OUTPUT));
    case TO27:
        return dagglehurst_to27(GRID, call->north, call->east, SLICE(OUTPUT));
    case CONVERT:
        return dagglehurst_convert(GRID, SLICE(WAYS), SLICE(INPUT), SLICE(OUTPUT), SLICE(REFUSALS));
    case LIST:
        return dagglehurst_list(GRID, SLICE(INPUT), SLICE(OUTPUT));
    case BEGIN:
        return dagglehurst_begin(GRID, SLICE(OUTPUT));
    default:
        return dagglehurst_feed(GRID, SLICE(LINE), SLICE(STATE), SLICE(INPUT), SLICE(OUTPUT));
    }
}

static void expect(const struct call *call, const char *what, unsigned refusal, uint64_t value, size_t canary) {
    const char *name = names[call->function];
    struct lent lent[SLICES];
    for (int s = 0; s < SLICES; s++)
        lent[s] = lend(&call->slices[s], canary);

    uint64_t reply = make(call, lent);
    EXPECT(dagglehurst_refusal(reply) == refusal && dagglehurst_value(reply) == value,
           "%s, %s: reply %u with %llu, expected %u with %llu", name, what, dagglehurst_refusal(reply),
           (unsigned long long)dagglehurst_value(reply), refusal, (unsigned long long)value);

    for (int s = 0; s < SLICES; s++) {
        EXPECT(memcmp(lent[s].block, lent[s].expected, lent[s].bytes) == 0, "%s, %s: memory of %s", name, what, slice_names[s]);
        free(lent[s].block);
        free(lent[s].expected);
    }
}

static void expect_answer(const struct call *call, const char *what, uint64_t value) {
    expect(call, what, 0, value, 64);
    expect(call, what, 0, value, 0);
}

static void expect_refusal(struct call call, const char *what, unsigned refusal, uint64_t place) {
    for (int s = 0; s < SLICES; s++)
        call.slices[s].after = NULL;
    expect(&call, what, refusal, place, 64);
    expect(&call, what, refusal, place, 0);
}

/* ---- The undamaged calls: the bulletin's cell ---- */

enum { NODES = 4, POINTS = 7 };

static const char text[] = "from=NAD27\nto=NAD83\nsouth=117900000\nwest=-298800000\ndlat=450000\ndlon=450000\nrows=2\ncols=2\n"
                           "node=53000,42000\nnode=57000,49000\nnode=51000,41000\nnode=57000,49000\nend=4\n";
static const char requests[] = "to83=118210250,-298581930\nto27=11821079228,-29858147963\nto83=117899999,-298581930\n"
                               "to27=11821079229,-29858147963\nto83=1\n";
static const char list[] = "sheet=4\nok83=11821079228,-29858147963,1,1\nok27=118210250,-298581930\nno=6\nno=7\nno=1\ndone=2,3\n";


/* The same list in pieces: its first line, a piece that ends one line and begins another, and its last lines. */
static const char sheet_line[] = "sheet=4\n";
static const char piece[] = "-298581930\nto27=11821079228,-29858147963\nto83=117899999,-298581930\nto83=1";
static const char replies[] = "ok83=11821079228,-29858147963,1,1\nok27=118210250,-298581930\nno=6\n";
static const char last_lines[] = "no=1\ndone=2,4\n";
static const uint8_t line[DAGGLEHURST_LINE + 1] = "to83=118210250,", next_line[6] = "to83=1";
static const int64_t state[DAGGLEHURST_STATE + 1] = {15, 7, 8, INT64_MIN}, next_state[DAGGLEHURST_STATE] = {6, 9, 9};
static const int64_t last_state[DAGGLEHURST_STATE + 1] = {15, 2, 3, INT64_MAX};

enum { TEXT = sizeof text - 1, REQUESTS = sizeof requests - 1, ALL_LIST = sizeof list - 1 };
enum { SHEET_LINE = sizeof sheet_line - 1, PIECE = sizeof piece - 1, REPLIES = sizeof replies - 1, LAST_LINES = sizeof last_lines - 1 };

/* One number more than is looked at, and an absurd one. */
static const int64_t header[DAGGLEHURST_HEADER + 1] = {117900000, -298800000, 450000, 450000, 2, 2, INT64_MIN};
static const int64_t lat[NODES + 1] = {53000, 57000, 51000, 57000, INT64_MAX};
static const int64_t lon[NODES + 1] = {42000, 49000, 41000, 49000, INT64_MIN};

/* On the way to NAD 83 the two signs stand behind the coordinates. */
static const int64_t mast27[2] = {118210250, -298581930};
static const int64_t mast83[4] = {11821079228, -29858147963, 1, 1};

/* Both ways, mixed, and ways that do not exist. Each request has four places for its answer. On the way back the last two stay, since
 * there are no signs; where a request is refused, all four stay. */
static const uint8_t ways[POINTS] = {DAGGLEHURST_TO83, 0, DAGGLEHURST_TO27, DAGGLEHURST_TO83, 3, DAGGLEHURST_TO27, 255};
static const int64_t points[2 * POINTS] = {118210250, -298581930, 118210250, -298581930, 11821079228, -29858147963, INT64_MIN,
                                           INT64_MAX, 118350000, -298350000, INT64_MIN, INT64_MAX, 11821079228, -29858147963};
static const int64_t stood[4 * POINTS + 1] = {
    -10, -11, -12, -13, -20, -21, -22, -23, -30, -31, -32, -33, -40, -41, -42, -43,
    -50, -51, -52, -53, -60, -61, -62, -63, -70, -71, -72, -73, -80,
};
static const int64_t answers[4 * POINTS] = {
    11821079228, -29858147963, 1, 1, -20, -21, -22, -23, 118210250, -298581930, -32, -33, -40, -41, -42, -43,
    -50, -51, -52, -53, -60, -61, -62, -63, -70, -71, -72, -73,
};
static const uint8_t refusals[POINTS] = {0, 1, 0, 6, 1, 7, 1};

/* A slice that is only read, and one that is written and has an element more than needed. */
#define READS(array, n) {.element = sizeof((array)[0]), .length = (n), .before = (array)}
#define WRITES(array, n) {.element = sizeof((array)[0]), .length = (n) + 1, .after = (array), .after_length = (n)}
#define WRITES_OVER(old, array, n)                                                                                               \
    {.element = sizeof((array)[0]), .length = (n) + 1, .before = (old), .after = (array), .after_length = (n)}
#define READS_GRID READS(header, DAGGLEHURST_HEADER + 1), READS(lat, NODES + 1), READS(lon, NODES + 1)

static const struct call undamaged[FUNCTIONS] = {
    {READ, {WRITES(header, DAGGLEHURST_HEADER), WRITES(lat, NODES), WRITES(lon, NODES), [INPUT] = READS(text, TEXT)}, 0, 0, NODES},
    {FINISH,
     {[OUTPUT] = WRITES(last_lines, LAST_LINES), [LINE] = READS(line, DAGGLEHURST_LINE + 1), READS(last_state, DAGGLEHURST_STATE + 1)},
     0, 0, LAST_LINES},
    {WRITE, {READS_GRID, [OUTPUT] = WRITES(text, TEXT)}, 0, 0, TEXT},
    {CHECK, {READS_GRID}, 0, 0, NODES},
    {TO83, {READS_GRID, [OUTPUT] = WRITES(mast83, 4)}, 118210250, -298581930, 1},
    {TO27, {READS_GRID, [OUTPUT] = WRITES(mast27, 2)}, 11821079228, -29858147963, 1},
    {CONVERT,
     {READS_GRID, READS(ways, POINTS), READS(points, 2 * POINTS), WRITES_OVER(stood, answers, 4 * POINTS), WRITES(refusals, POINTS)},
     0, 0, POINTS},
    {LIST, {READS_GRID, [INPUT] = READS(requests, REQUESTS), WRITES(list, ALL_LIST)}, 0, 0, ALL_LIST},
    {BEGIN, {READS_GRID, [OUTPUT] = WRITES(sheet_line, SHEET_LINE)}, 0, 0, SHEET_LINE},
    {FEED,
     {READS_GRID, [INPUT] = READS(piece, PIECE), WRITES(replies, REPLIES),
      [LINE] = {.element = 1, .length = DAGGLEHURST_LINE + 1, .before = line, .after = next_line, .after_length = sizeof next_line},
      WRITES_OVER(state, next_state, DAGGLEHURST_STATE)},
     0, 0, REPLIES},
};

static void test_undamaged(void) {
    for (int f = 0; f < FUNCTIONS; f++)
        expect_answer(&undamaged[f], "undamaged", undamaged[f].value);
}

/* ---- Slices that are too short ---- */

enum { ANY = -1 }; /* every function that is lent a grid */

static const struct {
    int function, slice;
    size_t length;
    unsigned refusal;
    uint64_t place;
} short_slices[] = {
    /* A missing number of the header counts as 0, and south and west may be 0: the first rule that 0 breaks is dlat's. */
    {ANY, HEADER, 0, 2, 3}, {ANY, HEADER, 1, 2, 3}, {ANY, HEADER, 2, 2, 3},
    {ANY, HEADER, 3, 2, 4}, {ANY, HEADER, 4, 2, 5}, {ANY, HEADER, 5, 2, 6},
    {ANY, LAT, 0, 5, 4}, {ANY, LAT, 1, 5, 4}, {ANY, LAT, 3, 5, 4},
    {ANY, LON, 0, 5, 4}, {ANY, LON, 1, 5, 4}, {ANY, LON, 3, 5, 4},
    /* The reader writes the header, so a short one is a slice for the answer. */
    {READ, HEADER, 0, 8, 6}, {READ, HEADER, 1, 8, 6}, {READ, HEADER, 2, 8, 6},
    {READ, HEADER, 3, 8, 6}, {READ, HEADER, 4, 8, 6}, {READ, HEADER, 5, 8, 6},
    {READ, LAT, 0, 5, 4}, {READ, LAT, 3, 5, 4}, {READ, LON, 0, 5, 4}, {READ, LON, 3, 5, 4},
    {READ, INPUT, 0, 1, 1}, {READ, INPUT, TEXT - 1, 1, 13},
    {WRITE, OUTPUT, 0, 8, TEXT}, {WRITE, OUTPUT, 1, 8, TEXT}, {WRITE, OUTPUT, TEXT - 1, 8, TEXT},
    {TO83, OUTPUT, 0, 8, 4}, {TO83, OUTPUT, 1, 8, 4}, {TO83, OUTPUT, 2, 8, 4}, {TO83, OUTPUT, 3, 8, 4},
    {TO27, OUTPUT, 0, 8, 2}, {TO27, OUTPUT, 1, 8, 2},
    {CONVERT, INPUT, 0, 8, 2 * POINTS}, {CONVERT, INPUT, 1, 8, 2 * POINTS}, {CONVERT, INPUT, 2 * POINTS - 1, 8, 2 * POINTS},
    {CONVERT, OUTPUT, 0, 8, 4 * POINTS}, {CONVERT, OUTPUT, 1, 8, 4 * POINTS}, {CONVERT, OUTPUT, 2 * POINTS, 8, 4 * POINTS},
    {CONVERT, OUTPUT, 4 * POINTS - 2, 8, 4 * POINTS}, {CONVERT, OUTPUT, 4 * POINTS - 1, 8, 4 * POINTS},
    {CONVERT, REFUSALS, 0, 8, POINTS}, {CONVERT, REFUSALS, 1, 8, POINTS}, {CONVERT, REFUSALS, POINTS - 1, 8, POINTS},
    {LIST, OUTPUT, 0, 8, ALL_LIST}, {LIST, OUTPUT, 1, 8, ALL_LIST}, {LIST, OUTPUT, ALL_LIST - 1, 8, ALL_LIST},
    {BEGIN, OUTPUT, 0, 8, SHEET_LINE}, {BEGIN, OUTPUT, 1, 8, SHEET_LINE}, {BEGIN, OUTPUT, SHEET_LINE - 1, 8, SHEET_LINE},
    {FEED, OUTPUT, 0, 8, REPLIES}, {FEED, OUTPUT, 1, 8, REPLIES}, {FEED, OUTPUT, REPLIES - 1, 8, REPLIES},
    {FEED, LINE, 0, 8, 65}, {FEED, LINE, 15, 8, 65}, {FEED, LINE, 64, 8, 65},
    {FEED, STATE, 0, 8, 3}, {FEED, STATE, 1, 8, 3}, {FEED, STATE, 2, 8, 3},
    {FINISH, OUTPUT, 0, 8, LAST_LINES}, {FINISH, OUTPUT, 1, 8, LAST_LINES}, {FINISH, OUTPUT, LAST_LINES - 1, 8, LAST_LINES},
    {FINISH, LINE, 0, 8, 65}, {FINISH, LINE, 15, 8, 65}, {FINISH, LINE, 64, 8, 65},
    {FINISH, STATE, 0, 8, 3}, {FINISH, STATE, 1, 8, 3}, {FINISH, STATE, 2, 8, 3},
};

static int concerns(int wanted, int function) { return wanted == ANY ? function >= WRITE : wanted == function; }

static void test_short_slices(void) {
    for (size_t k = 0; k < COUNT(short_slices); k++)
        for (int f = 0; f < FUNCTIONS; f++)
            if (concerns(short_slices[k].function, f)) {
                struct call call = undamaged[f];
                char what[64];
                snprintf(what, sizeof what, "%s of %zu", slice_names[short_slices[k].slice], short_slices[k].length);
                call.slices[short_slices[k].slice].length = short_slices[k].length;
                expect_refusal(call, what, short_slices[k].refusal, short_slices[k].place);
            }
}

/* Nothing at all is lent. The header then counts as six zeros; the reader has no room for one, and the end of a list has no list. */
static void test_nothing_lent(void) {
    for (int f = 0; f < FUNCTIONS; f++) {
        struct call call = undamaged[f];
        for (int s = 0; s < SLICES; s++)
            call.slices[s].length = 0;
        expect_refusal(call, "nothing lent", f < WRITE ? 8 : 2, f == READ ? 6 : f == FINISH ? 65 : 3);
    }
}

/* An empty input is no damage to a list, a piece of one or a batch: there is nothing to convert. */
static void test_empty_input(void) {
    static const char empty_list[] = "sheet=4\ndone=0,0\n";
    struct call call = undamaged[LIST];
    call.slices[INPUT].length = 0;
    call.slices[OUTPUT] = (struct slice)WRITES(empty_list, sizeof empty_list - 1);
    expect_answer(&call, "no requests", sizeof empty_list - 1);

    call = undamaged[FEED];
    call.slices[INPUT].length = 0;
    call.slices[OUTPUT] = (struct slice){.element = 1};
    call.slices[LINE].after = call.slices[STATE].after = NULL;
    expect_answer(&call, "an empty piece", 0);

    call = undamaged[CONVERT];
    for (int s = WAYS; s <= REFUSALS; s++)
        call.slices[s] = (struct slice){.element = call.slices[s].element};
    expect_answer(&call, "no requests", 0);
}

/* Fewer ways are fewer requests: points, answers and refusals behind them are left alone. */
static void test_fewer_ways(void) {
    for (size_t n = 0; n < POINTS; n++) {
        struct call call = undamaged[CONVERT];
        call.slices[WAYS].length = n;
        call.slices[OUTPUT].after_length = 4 * n;
        call.slices[REFUSALS].after_length = n;
        expect_answer(&call, "fewer ways", n);
    }
}

/* The way back has no signs, so an answer that has room for them keeps what stands there. */
static void test_no_signs_back(void) {
    struct call call = undamaged[TO27];
    call.slices[OUTPUT].length = 4;
    expect_answer(&call, "room for signs", 1);
}

/* ---- Lists that no call has left ---- */

/* Any length and any totals, with the line `to83=1182102..` and nothing behind it. A newline is fed, which ends the line: it is refused
 * 1 whatever bytes are counted to it. */
static const struct {
    int64_t length, answered, refused, refused_then;
    const char *last_lines;
} lists[] = {
    {0, 0, 0, 1, "done=0,0\n"}, {-1, 0, 0, 1, "done=0,0\n"}, {INT64_MIN, 1, 2, 3, "done=1,2\n"},
    {15, 1, 2, 3, "no=1\ndone=1,3\n"}, {64, 1, 2, 3, "no=1\ndone=1,3\n"}, {65, 1, 2, 3, "no=1\ndone=1,3\n"},
    {66, 1, 2, 3, "no=1\ndone=1,3\n"}, {INT64_MAX, 1, 2, 3, "no=1\ndone=1,3\n"}, {INT64_C(1) << 32, 1, 2, 3, "no=1\ndone=1,3\n"},
    {0, -7, -8, -7, "done=-7,-8\n"}, {1, -7, -1, 0, "no=1\ndone=-7,0\n"},
    {0, INT64_MIN, INT64_MAX, INT64_MAX, "done=-9223372036854775808,9223372036854775807\n"},
    {9, INT64_MAX, INT64_MAX, INT64_MAX, "no=1\ndone=9223372036854775807,9223372036854775807\n"},
};

static void test_lists(void) {
    static const char ended[] = "\n", no[] = "no=1\n";
    for (size_t k = 0; k < COUNT(lists); k++) {
        const int64_t before[DAGGLEHURST_STATE] = {lists[k].length, lists[k].answered, lists[k].refused};
        const int64_t after[DAGGLEHURST_STATE] = {0, lists[k].answered, lists[k].refused_then};
        size_t last = strlen(lists[k].last_lines);
        char what[64];
        snprintf(what, sizeof what, "list %zu", k);

        struct call feed = undamaged[FEED];
        feed.slices[INPUT] = (struct slice)READS(ended, 1);
        feed.slices[OUTPUT] = (struct slice)WRITES(no, sizeof no - 1);
        feed.slices[LINE] = (struct slice)READS(line, DAGGLEHURST_LINE);
        feed.slices[STATE] = (struct slice){sizeof before[0], DAGGLEHURST_STATE, before, after, DAGGLEHURST_STATE};
        expect_answer(&feed, what, sizeof no - 1);

        struct call finish = undamaged[FINISH];
        finish.slices[STATE] = (struct slice)READS(before, DAGGLEHURST_STATE);
        finish.slices[OUTPUT] = (struct slice)WRITES(lists[k].last_lines, last);
        expect_answer(&finish, what, last);
    }
}

/* ---- Headers that break a rule ---- */

static const struct {
    int64_t header[DAGGLEHURST_HEADER];
    uint64_t rule;
} headers[] = {
    {{INT64_MIN, 0, 1000, 1000, 2, 2}, 1}, {{INT64_MAX, 0, 1000, 1000, 2, 2}, 1},
    {{-323940001, 0, 1000, 1000, 2, 2}, 1}, {{323940001, 0, 1000, 1000, 2, 2}, 1},
    {{0, INT64_MIN, 1000, 1000, 2, 2}, 2}, {{0, INT64_MAX, 1000, 1000, 2, 2}, 2},
    {{0, -648000001, 1000, 1000, 2, 2}, 2}, {{0, 648000000, 1000, 1000, 2, 2}, 2},
    /* a turn off, where 0 is meant */
    {{0, 1296000000, 1000, 1000, 2, 2}, 2}, {{0, -1296000000, 1000, 1000, 2, 2}, 2},
    {{0, 0, 0, 1000, 2, 2}, 3}, {{0, 0, -450000, 1000, 2, 2}, 3}, {{0, 0, 999, 1000, 2, 2}, 3},
    {{0, 0, 900001, 1000, 2, 2}, 3}, {{0, 0, INT64_MIN, 1000, 2, 2}, 3}, {{0, 0, INT64_MAX, 1000, 2, 2}, 3},
    {{0, 0, 1000, 0, 2, 2}, 4}, {{0, 0, 1000, -450000, 2, 2}, 4}, {{0, 0, 1000, 999, 2, 2}, 4},
    {{0, 0, 1000, 900001, 2, 2}, 4}, {{0, 0, 1000, INT64_MIN, 2, 2}, 4}, {{0, 0, 1000, INT64_MAX, 2, 2}, 4},
    {{0, 0, 1000, 1000, 0, 2}, 5}, {{0, 0, 1000, 1000, 1, 2}, 5}, {{0, 0, 1000, 1000, -2, -2}, 5},
    {{0, 0, 1000, 1000, 257, 2}, 5}, {{0, 0, 1000, 1000, INT64_MIN, 2}, 5}, {{0, 0, 1000, 1000, INT64_MAX, 2}, 5},
    {{0, 0, 1000, 1000, 2, 0}, 6}, {{0, 0, 1000, 1000, 2, 1}, 6}, {{0, 0, 1000, 1000, 2, -2}, 6},
    {{0, 0, 1000, 1000, 2, 257}, 6}, {{0, 0, 1000, 1000, 2, INT64_MIN}, 6}, {{0, 0, 1000, 1000, 2, INT64_MAX}, 6},
    /* rows x cols beyond 64 bits, where the product would come out as 0, 4 or -2 */
    {{0, 0, 1000, 1000, INT64_C(1) << 32, INT64_C(1) << 32}, 5},
    {{0, 0, 1000, 1000, INT64_C(1) << 62, 4}, 5}, {{0, 0, 1000, 1000, 4, INT64_C(1) << 62}, 6},
    {{0, 0, 1000, 1000, (INT64_C(1) << 62) + 1, 4}, 5}, {{0, 0, 1000, 1000, 2, INT64_MAX}, 6},
    {{0, 0, 1000, 1000, 33, 64}, 7}, {{0, 0, 1000, 1000, 256, 9}, 7}, {{0, 0, 1000, 1000, 256, 256}, 7},
    {{323939001, 0, 1000, 1000, 2, 2}, 8}, {{323940000, 0, 900000, 1000, 256, 8}, 8},
    /* the first broken rule is the one that is told */
    {{INT64_MIN, INT64_MIN, INT64_MIN, INT64_MIN, INT64_MIN, INT64_MIN}, 1},
    {{0, INT64_MAX, INT64_MAX, INT64_MAX, INT64_MAX, INT64_MAX}, 2},
    {{323939001, 648000000, 1000, 1000, 2, 2}, 2}, {{323939001, 647999999, 1000, 1000, 2, 2}, 8},
};

static void test_headers(void) {
    for (size_t k = 0; k < COUNT(headers); k++)
        for (int f = WRITE; f < FUNCTIONS; f++) {
            struct call call = undamaged[f];
            char what[64];
            snprintf(what, sizeof what, "header %zu", k);
            call.slices[HEADER] = (struct slice)READS(headers[k].header, DAGGLEHURST_HEADER);
            expect_refusal(call, what, 2, headers[k].rule);
        }
}

/* West edges at the ends of their range, and such that the grid reaches the 180th meridian, crosses it, or stays short of it: no rule
 * limits the east edge. */
static void test_west_edges(void) {
    static const int64_t edges[] = {-648000000, -647999999, 647549999, 647550000, 647550001, 647775000, 647940001, 647999999};
    for (size_t k = 0; k < COUNT(edges); k++) {
        const int64_t moved[DAGGLEHURST_HEADER] = {117900000, edges[k], 450000, 450000, 2, 2};
        char written[TEXT + 1], what[64];
        const char *at = strstr(text, "-298800000");
        int length = snprintf(written, sizeof written, "%.*s%lld%s", (int)(at - text), text, (long long)edges[k], at + 10);
        snprintf(what, sizeof what, "west edge %lld", (long long)edges[k]);

        struct call check = undamaged[CHECK], write = undamaged[WRITE], read = undamaged[READ];
        check.slices[HEADER] = write.slices[HEADER] = (struct slice)READS(moved, DAGGLEHURST_HEADER);
        expect_answer(&check, what, NODES);
        write.slices[OUTPUT] = (struct slice)WRITES(written, (size_t)length);
        expect_answer(&write, what, (uint64_t)length);
        read.slices[HEADER] = (struct slice)WRITES(moved, DAGGLEHURST_HEADER);
        read.slices[INPUT] = (struct slice)READS(written, (size_t)length);
        expect_answer(&read, what, NODES);
    }
}

/* ---- Nodes beyond the range, nodes that are too steep, and a cell that is twisted too far ---- */

/* With a spacing of 450,000 two neighbours differ by 2,812,500 at most, and the southwest and northeast shift less the other two come to
 * 703,125 at most, of which sheet P has 2,000 in latitude and 1,000 in longitude. A refusal of 0: the grid passes. */
static const struct {
    int slice, node;
    int64_t shift;
    unsigned refusal;
    uint64_t place;
} nodes[] = {
    {LAT, 0, INT64_MIN, 3, 0}, {LAT, 0, INT64_MAX, 3, 0}, {LON, 3, INT64_MIN, 3, 3}, {LON, 3, INT64_MAX, 3, 3},
    {LAT, 1, 6000001, 3, 1}, {LAT, 2, -6000001, 3, 2}, {LON, 1, 6000001, 3, 1}, {LON, 0, -6000001, 3, 0},
    {LAT, 1, 6000000, 4, 0}, {LON, 3, -6000000, 4, 1},
    {LAT, 0, 51000 + 2812500, 14, 0}, {LAT, 0, 51000 + 2812501, 4, 0},
    {LAT, 3, 57000 - 2812501, 4, 1}, {LON, 3, 49000 + 2812501, 4, 1},
    {LON, 2, 49000 - 2812500, 14, 0}, {LON, 2, 49000 - 2812501, 4, 2},
    {LAT, 0, 53000 + 701125, 0, 4}, {LAT, 0, 53000 + 701126, 14, 0}, {LAT, 1, 57000 + 705125, 0, 4}, {LAT, 1, 57000 + 705126, 14, 0},
    {LON, 2, 41000 - 702125, 0, 4}, {LON, 2, 41000 - 702126, 14, 0}, {LON, 3, 49000 - 704125, 0, 4}, {LON, 3, 49000 - 704126, 14, 0},
};

static void test_nodes(void) {
    for (size_t k = 0; k < COUNT(nodes); k++)
        for (int f = WRITE; f < FUNCTIONS; f++) {
            struct call call = undamaged[f];
            int64_t damaged[NODES];
            char what[64];
            snprintf(what, sizeof what, "node row %zu", k);
            memcpy(damaged, nodes[k].slice == LAT ? lat : lon, sizeof damaged);
            damaged[nodes[k].node] = nodes[k].shift;
            call.slices[nodes[k].slice] = (struct slice)READS(damaged, NODES);
            if (nodes[k].refusal != 0)
                expect_refusal(call, what, nodes[k].refusal, nodes[k].place);
            else if (f == CHECK)
                expect_answer(&call, what, nodes[k].place);
        }
}

/* ---- Points ---- */

static const struct {
    enum function function;
    int64_t north, east;
} lost_points[] = {
    {TO83, INT64_MIN, INT64_MIN}, {TO83, INT64_MAX, INT64_MAX}, {TO83, INT64_MIN, -298581930}, {TO83, 118210250, INT64_MIN},
    {TO83, INT64_MAX, -298581930}, {TO83, 118210250, INT64_MAX}, {TO83, 117899999, -298581930}, {TO83, 118350001, -298581930},
    {TO83, 118210250, -298800001}, {TO83, 118210250, -298349999}, {TO83, 11821079228, -29858147963}, {TO83, 0, 0},
    {TO83, 118210250, -648000001}, {TO83, 118210250, -648000000}, {TO83, 118210250, 647999999}, {TO83, 118210250, 648000000},
    /* the mast's longitude a turn off, which names no place */
    {TO83, 118210250, 997418070}, {TO83, 118210250, -1594581930},
    {TO27, INT64_MIN, INT64_MIN}, {TO27, INT64_MAX, INT64_MAX}, {TO27, INT64_MIN, -29858147963}, {TO27, 11821079228, INT64_MIN},
    {TO27, INT64_MAX, -29858147963}, {TO27, 11821079228, INT64_MAX}, {TO27, 11821079229, -29858147963},
    {TO27, 11821079228, -29858147964}, {TO27, 11790052999, -29879958000}, {TO27, 11835057001, -29834951000},
    {TO27, 118210250, -298581930}, {TO27, 0, 0},
    {TO27, 11821079228, -64800000001}, {TO27, 11821079228, -64800000000}, {TO27, 11821079228, 64799999999},
    {TO27, 11821079228, 64800000000}, {TO27, 11821079228, 99741852037}, {TO27, 11821079228, -159458147963},
};

/* A call on the bulletin's cell with another header and other longitude shifts. */
static struct call on_grid(enum function function, const int64_t *of, const int64_t *shifts) {
    struct call call = undamaged[function];
    call.slices[HEADER] = (struct slice)READS(of, DAGGLEHURST_HEADER);
    call.slices[LON] = (struct slice)READS(shifts, NODES);
    return call;
}

/* A point or figure that is refused whether or not there is room for an answer, alone and as the only request of a batch. */
static void expect_lost(const int64_t *of, const int64_t *shifts, enum function function, int64_t north, int64_t east) {
    int to83 = function == TO83;
    uint8_t refusal = to83 ? 6 : 7, way = to83 ? DAGGLEHURST_TO83 : DAGGLEHURST_TO27;
    int64_t point[2] = {north, east};
    char what[64];
    snprintf(what, sizeof what, "point %lld,%lld", (long long)north, (long long)east);

    struct call one = on_grid(function, of, shifts);
    one.north = north;
    one.east = east;
    expect_refusal(one, what, refusal, 0);
    one.slices[OUTPUT].length = 0;
    expect_refusal(one, what, refusal, 0);

    struct call all = on_grid(CONVERT, of, shifts);
    all.slices[WAYS] = (struct slice)READS(&way, 1);
    all.slices[INPUT] = (struct slice)READS(point, 2);
    all.slices[OUTPUT].after = NULL;
    all.slices[REFUSALS] = (struct slice)WRITES(&refusal, 1);
    expect_answer(&all, what, 1);
}

static void test_points(void) {
    for (size_t k = 0; k < COUNT(lost_points); k++)
        expect_lost(header, lon, lost_points[k].function, lost_points[k].north, lost_points[k].east);
}

/* ---- The bulletin's cell moved so that the 180th meridian halves it ---- */

static const int64_t turn27 = 1296000000, turn83 = INT64_C(129600000000);
static const int64_t halved[DAGGLEHURST_HEADER] = {117900000, 647775000, 450000, 450000, 2, 2};

/* Other longitude shifts, that carry the places beside the meridian to it, past it or just short of it. */
static const int64_t east100[NODES] = {100, 100, 100, 100}, west100[NODES] = {-100, -100, -100, -100}, east99[NODES] = {99, 99, 99, 99};

static const struct {
    const int64_t *shifts;
    int64_t point[2], answer[4];
} at_meridian[] = {
    /* the corners, the mast, the middle, which is on the meridian, and a thousandth west of it */
    {lon, {117900000, 647775000}, {11790053000, 64777542000, 0, 0}},
    {lon, {118350000, 647775000}, {11835051000, 64777541000, 0, 0}},
    {lon, {117900000, -647775000}, {11790057000, -64777451000, 0, 0}},
    {lon, {118350000, -647775000}, {11835057000, -64777451000, 0, 0}},
    {lon, {118210250, 647993070}, {11821079228, 64799352037, 1, 1}},
    {lon, {118125000, -648000000}, {11812554500, -64799954750, 0, 0}},
    {lon, {118125000, 647999999}, {11812554500, -64799954850, 1, 1}},
    {east100, {118125000, 647999998}, {11812554500, 64799999900, 1, 0}},
    {east100, {118125000, 647999999}, {11812554500, -64800000000, 1, 0}},
    {west100, {118125000, -647999999}, {11812554500, -64800000000, -1, 0}},
    {west100, {118125000, -648000000}, {11812554500, 64799999900, 0, 0}},
    {east99, {118125000, 647999999}, {11812554500, 64799999999, 1, 0}},
};

/* Longitudes just off the edges, just past the ends of the range, and the least and the greatest number. */
static const int64_t lost27[] = {647774999, -647774999, 648000000, -648000001, 648225000, INT64_MIN, INT64_MAX};
static const int64_t lost83[] = {64777541999, 64777542001, 64800000000, -64800000001, -64800000000, 64799999999, INT64_MIN, INT64_MAX};

/* There and back, each alone and both in a batch, where the way back leaves the signs' places as they were. */
static void expect_both_ways(const int64_t *shifts, const int64_t *point, const int64_t *answer) {
    static const uint8_t both[2] = {DAGGLEHURST_TO83, DAGGLEHURST_TO27}, answered[2] = {0, 0};
    static const int64_t held[9] = {-10, -11, -12, -13, -20, -21, -22, -23, -30};
    const int64_t asked[4] = {point[0], point[1], answer[0], answer[1]};
    const int64_t found[8] = {answer[0], answer[1], answer[2], answer[3], point[0], point[1], -22, -23};

    struct call there = on_grid(TO83, halved, shifts), back = on_grid(TO27, halved, shifts), all = on_grid(CONVERT, halved, shifts);
    there.north = point[0];
    there.east = point[1];
    there.slices[OUTPUT] = (struct slice)WRITES(answer, 4);
    expect_answer(&there, "at the meridian", 1);
    back.north = answer[0];
    back.east = answer[1];
    back.slices[OUTPUT] = (struct slice)WRITES(point, 2);
    expect_answer(&back, "at the meridian", 1);
    all.slices[WAYS] = (struct slice)READS(both, 2);
    all.slices[INPUT] = (struct slice)READS(asked, 4);
    all.slices[OUTPUT] = (struct slice)WRITES_OVER(held, found, 8);
    all.slices[REFUSALS] = (struct slice)WRITES(answered, 2);
    expect_answer(&all, "at the meridian", 2);
}

static void test_meridian(void) {
    for (size_t k = 0; k < COUNT(at_meridian); k++) {
        const int64_t *shifts = at_meridian[k].shifts, *point = at_meridian[k].point, *answer = at_meridian[k].answer;
        expect_both_ways(shifts, point, answer);
        /* a turn off, a number names no place */
        expect_lost(halved, shifts, TO83, point[0], point[1] + turn27);
        expect_lost(halved, shifts, TO83, point[0], point[1] - turn27);
        expect_lost(halved, shifts, TO27, answer[0], answer[1] + turn83);
        expect_lost(halved, shifts, TO27, answer[0], answer[1] - turn83);
    }
    for (size_t k = 0; k < COUNT(lost27); k++)
        expect_lost(halved, lon, TO83, 117900000, lost27[k]);
    for (size_t k = 0; k < COUNT(lost83); k++)
        expect_lost(halved, lon, TO27, 11790053000, lost83[k]);
}

/* ---- Texts ---- */

/* The first place where `old` stands in the undamaged text gets `new`. */
static const struct {
    const char *old, *new;
    unsigned refusal;
    uint64_t place;
} edits[] = {
    {"from=NAD27", "from=NAD83", 1, 1}, {"from", " from", 1, 1}, {"from=NAD27\n", "", 1, 1}, {"from", "\xEF\xBB\xBF" "from", 1, 1},
    {"to=NAD83\n", "", 1, 2}, {"to=NAD83\n", "to=NAD83\r\n", 1, 2}, {"to=NAD83\n", "to=NAD83\n\n", 1, 3},
    {"south=1", "south=+1", 1, 3}, {"south=1", "south=01", 1, 3}, {"south=117900000", "south=-0", 1, 3},
    {"south=117900000", "south=", 1, 3}, {"south=117900000", "south=-", 1, 3}, {"south=117900000", "south=117900000000", 1, 3},
    {"south=117900000", "south=99999999999", 2, 1}, {"south=117900000", "south=323939999", 2, 8},
    {"west=-298800000", "west=--298800000", 1, 4}, {"west=-298800000", "west=-99999999999", 2, 2},
    {"west=-298800000", "west=648000000", 2, 2}, {"west=-298800000", "west=-648000001", 2, 2}, {"west=-298800000", "west=-0", 1, 4},
    {"dlat=450000", "dlon=450000", 1, 5}, {"dlat=450000", "dlat=0", 2, 3},
    {"dlat=450000", "dlat=900001", 2, 3}, {"dlon=450000", "dlon=-450000", 2, 4}, {"dlon=450000", "dlon=450000 ", 1, 6},
    {"rows=2", "rows=0", 2, 5}, {"rows=2", "rows=99999999999", 2, 5}, {"cols=2", "cols=1", 2, 6}, {"cols=2", "cols=99999999999", 2, 6},
    {"rows=2\ncols=2", "rows=256\ncols=256", 2, 7}, {"rows=2\ncols=2", "rows=2", 1, 8},
    {"rows=2\ncols=2", "rows=3\ncols=2", 5, 6}, {"rows=2\ncols=2", "rows=32\ncols=64", 5, 2048},
    {"node=53000,42000", "node=53000;42000", 1, 9}, {"node=53000,42000", "node=53000", 1, 9}, {"node=53000,42000", "node=53000,", 1, 9},
    {"node=53000,42000", "node=53000,42000,0", 1, 9}, {"node=53000,42000", "node=6000001,42000", 3, 0},
    {"node=53000,42000", "node=53000,-6000001", 3, 0}, {"node=53000,42000", "node=6000001,x", 1, 9},
    {"node=51000,41000", "node=51000,99999999999", 3, 2}, {"node=51000,41000\n", "", 1, 12},
    {"node=53000,42000", "node=2869501,42000", 4, 0}, {"node=51000,41000", "node=51000,6000000", 4, 0},
    {"node=57000,49000\nend", "node=57000,-2763501\nend", 4, 1}, {"node=53000,42000", "node=754126,42000", 14, 0},
    {"node=51000,41000", "node=51000,-661126", 14, 0}, {"end=4", "node=0,0\nend=4", 1, 13},
    {"end=4", "end=5", 1, 13}, {"end=4", "end=04", 1, 13}, {"end=4", "end=4 ", 1, 13}, {"end=4\n", "", 1, 13}, {"end=4\n", "end=4", 1, 13},
    {"end=4\n", "end=4\n\n", 1, 14}, {"end=4\n", "end=4\nend=4\n", 1, 14},
    /* form stands before steepness and twist, and a node's range before a later line's form */
    {"node=57000,49000\nend=4", "node=57000,-2763501\nend=5", 1, 13}, {"node=57000,49000\nend=4", "node=57000,-655126\nend=5", 1, 13},
    {"57000,49000\nnode=51000", "6000001,0\nnod=51000", 3, 1},
};

static void expect_text(const char *damaged, size_t length, const char *what, unsigned refusal, uint64_t place) {
    struct call call = undamaged[READ];
    call.slices[INPUT] = (struct slice)READS(damaged, length);
    expect_refusal(call, what, refusal, place);
}

static void test_edits(void) {
    for (size_t k = 0; k < COUNT(edits); k++) {
        char damaged[2 * TEXT], what[64];
        const char *at = strstr(text, edits[k].old);
        if (at == NULL) {
            EXPECT(at != NULL, "edit %zu: its old text is not there", k);
            continue;
        }
        snprintf(damaged, sizeof damaged, "%.*s%s%s", (int)(at - text), text, edits[k].new, at + strlen(edits[k].old));
        snprintf(what, sizeof what, "edit %zu", k);
        expect_text(damaged, strlen(damaged), what, edits[k].refusal, edits[k].place);
    }
}

/* The text cut at every place, and each of its bytes replaced by others that no text has there. Place: the line of that byte. */
static void test_every_byte(void) {
    static const char strangers[] = {'\0', ' ', '+', '\xFF'};
    uint64_t line = 1;
    for (size_t at = 0; at < TEXT; at++) {
        char damaged[TEXT], what[64];
        snprintf(what, sizeof what, "cut at %zu", at);
        expect_text(text, at, what, 1, line);
        for (size_t s = 0; s < sizeof strangers; s++) {
            memcpy(damaged, text, TEXT);
            damaged[at] = strangers[s];
            snprintf(what, sizeof what, "byte %zu made %d", at, strangers[s]);
            expect_text(damaged, TEXT, what, 1, line);
        }
        line += text[at] == '\n';
    }
}

/* ---- The order of the refusals: two damages in one call ---- */

/* A grid that fails one check more each time, and no room for what the call writes. */
static void expect_order(struct call call) {
    static const int64_t no_rows[DAGGLEHURST_HEADER] = {0, 0, 1000, 1000, 0, 2};
    static const int64_t beyond[NODES] = {0, 0, 0, 6000001}, steep[NODES] = {0, 2812501, 0, 0}, twisted[NODES] = {703126, 0, 0, 0};
    call.slices[OUTPUT].length = 0;
    call.slices[REFUSALS].length = 0;
    call.slices[LINE].length = 0;
    call.slices[STATE].length = 0;
    call.slices[LON] = (struct slice)READS(twisted, NODES);
    expect_refusal(call, "twisted, and no room", 14, 0);
    call.slices[LAT] = (struct slice)READS(steep, NODES);
    expect_refusal(call, "steep, and twisted", 4, 0);
    call.slices[LON] = (struct slice)READS(beyond, NODES);
    expect_refusal(call, "beyond the range, and steep", 3, 3);
    call.slices[LAT].length = NODES - 1;
    expect_refusal(call, "short, and beyond the range", 5, 4);
    call.slices[HEADER] = (struct slice)READS(no_rows, DAGGLEHURST_HEADER);
    expect_refusal(call, "header, and short", 2, 5);
}

static void test_order(void) {
    for (int f = WRITE; f < FUNCTIONS; f++)
        expect_order(undamaged[f]);

    /* where there is nothing to convert too */
    struct call no_requests = undamaged[CONVERT], no_lines = undamaged[LIST], no_bytes = undamaged[FEED];
    no_requests.slices[WAYS].length = 0;
    expect_order(no_requests);
    no_lines.slices[INPUT].length = 0;
    expect_order(no_lines);
    no_bytes.slices[INPUT].length = 0;
    expect_order(no_bytes);

    struct call call = undamaged[CONVERT];
    call.slices[REFUSALS].length = 0;
    call.slices[OUTPUT].length = 4 * POINTS - 1;
    expect_refusal(call, "answers, and refusals", 8, 4 * POINTS);
    call.slices[INPUT].length = 2 * POINTS - 1;
    expect_refusal(call, "points, answers, and refusals", 8, 2 * POINTS);
    call.slices[OUTPUT] = undamaged[CONVERT].slices[OUTPUT];
    expect_refusal(call, "points, and refusals", 8, 2 * POINTS);

    static const enum function of_lists[] = {FEED, FINISH};
    for (size_t k = 0; k < COUNT(of_lists); k++) {
        call = undamaged[of_lists[k]];
        call.slices[OUTPUT].length = 0;
        call.slices[STATE].length = DAGGLEHURST_STATE - 1;
        expect_refusal(call, "state, and room", 8, 3);
        call.slices[LINE].length = DAGGLEHURST_LINE - 1;
        expect_refusal(call, "line, and state", 8, 65);
    }

    call = undamaged[READ];
    call.slices[INPUT].length = 0;
    call.slices[HEADER].length = DAGGLEHURST_HEADER - 1;
    expect_refusal(call, "header, and text", 8, 6);
}

int main(void) {
    /* reports come out even where a later call crashes */
    setvbuf(stdout, NULL, _IONBF, 0);
    test_undamaged();
    test_short_slices();
    test_nothing_lent();
    test_empty_input();
    test_fewer_ways();
    test_no_signs_back();
    test_lists();
    test_headers();
    test_west_edges();
    test_nodes();
    test_points();
    test_meridian();
    test_edits();
    test_every_byte();
    test_order();
    printf("damaged calls: %lu checks, %lu failed\n", checks, failures);
    return failures > 0;
}
