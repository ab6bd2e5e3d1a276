// Measures points per second in memory, for bench/points: Dagglehurst's batch function beside plain C without checks and, built with
// -DWITH_PROJ, beside PROJ. `points GRID FOLDER`: GRID is a grid's text, FOLDER takes PROJ's files.
#define _POSIX_C_SOURCE 200809L
#include <math.h>
#include <stdio.h>
#include <stdlib.h>
#include <string.h>
#include <time.h>

#include "dagglehurst.h"
#include "points.h"

#ifdef WITH_PROJ
enum { PROJ_INSTALLED = 1 };
#else
enum { PROJ_INSTALLED = 0 };
void proj_open(const struct grid *grid, const char *folder) { (void)grid, (void)folder; }
void proj_to83(double *lats, double *lons, size_t n) { (void)lats, (void)lons, (void)n; }
void proj_to27(double *lats, double *lons, size_t n) { (void)lats, (void)lons, (void)n; }
void proj_close(void) {}
const char *proj_version(void) { return "not installed"; }
#endif

enum { MOST = 1000000, REPETITIONS = 11 };
enum way { TO83, TO27, WAYS };
enum { OURS, PLAIN, PROJ, CONVERTERS };

// The points of a grid, their NAD 83 figures, and what each converter makes of them, four numbers for each point. PROJ converts in place:
// lats and lons.
static int64_t points27[2 * MOST], points83[2 * MOST], answers[4 * MOST], plain_answers[4 * MOST];
static uint8_t refusals[MOST], ways[WAYS][MOST];
static double lats27[MOST], lons27[MOST], lats83[MOST], lons83[MOST], lats[MOST], lons[MOST];

static const double pi = 3.14159265358979323846;

static void fail(const char *what) {
    fprintf(stderr, "%s\n", what);
    exit(1);
}

// Knuth's MMIX sequence, its upper bits. The same points in every run.
static int64_t random_below(int64_t n) {
    static uint64_t state = 1;
    state = state * 6364136223846793005u + 1442695040888963407u;
    return (int64_t)((state >> 20) % (uint64_t)n);
}

static int64_t random_between(int64_t least, int64_t most) { return least + random_below(most - least + 1); }

// ---- Grids ----

// A shift for each node from a random polynomial of degree two: smooth, and below 1.5 arc seconds.
static void random_shifts(int64_t *shifts, int64_t rows, int64_t cols) {
    int64_t base = random_between(-50000, 50000), north = random_between(-300, 300), east = random_between(-300, 300);
    int64_t north2 = random_between(-5, 5), mixed = random_between(-5, 5), east2 = random_between(-5, 5);
    for (int64_t r = 0; r < rows; r++)
        for (int64_t c = 0; c < cols; c++)
            shifts[r * cols + c] = base + north * r + east * c + north2 * r * r + mixed * r * c + east2 * c * c;
}

static void random_grid(struct grid *grid, int64_t west, int64_t rows, int64_t cols) {
    int64_t header[6] = {117900000, west, 450000, 450000, rows, cols};
    memcpy(grid->header, header, sizeof header);
    grid->nodes = (size_t)(rows * cols);
    random_shifts(grid->lat, rows, cols);
    random_shifts(grid->lon, rows, cols);
    if (dagglehurst_refusal(dagglehurst_check(grid->header, 6, grid->lat, grid->nodes, grid->lon, grid->nodes)) != 0)
        fail("the random grid does not pass the checks");
}

static void read_grid(struct grid *grid, const char *path) {
    static uint8_t text[DAGGLEHURST_MAX_TEXT + 1];
    FILE *file = fopen(path, "rb");
    if (file == NULL)
        fail("the grid's text cannot be opened");
    size_t length = fread(text, 1, sizeof text, file);
    fclose(file);
    uint64_t reply = dagglehurst_read(text, length, grid->header, 6, grid->lat, DAGGLEHURST_MAX_NODES, grid->lon, DAGGLEHURST_MAX_NODES);
    if (dagglehurst_refusal(reply) != 0)
        fail("the grid's text is refused");
    grid->nodes = dagglehurst_value(reply);
}

// ---- Points ----

// Random points, two arc seconds inside the edges: PROJ's way back starts with the shift at the NAD 83 figure itself, and refuses a
// figure off the grid even where its point is on it.
static void spread_points(const struct grid *grid) {
    const int64_t *h = grid->header, margin = 2000;
    for (size_t k = 0; k < MOST; k++) {
        points27[2 * k] = random_between(h[0] + margin, h[0] + (h[4] - 1) * h[2] - margin);
        int64_t lon = random_between(h[1] + margin, h[1] + (h[5] - 1) * h[3] - margin);
        // the number of a place past the 180th meridian
        points27[2 * k + 1] = lon < 648000000 ? lon : lon - 1296000000;
    }
}

// Radians of figures of which `second` make an arc second.
static void to_radians(const int64_t *figures, double second, double *to_lats, double *to_lons) {
    for (size_t k = 0; k < MOST; k++) {
        to_lats[k] = (double)figures[2 * k] / (second * 648000) * pi;
        to_lons[k] = (double)figures[2 * k + 1] / (second * 648000) * pi;
    }
}

static void convert_ours(enum way way, const struct grid *grid, size_t from, size_t n) {
    const int64_t *points = way == TO83 ? points27 : points83;
    if (dagglehurst_convert(grid->header, 6, grid->lat, grid->nodes, grid->lon, grid->nodes, ways[way] + from, n, points + 2 * from, 2 * n,
                            answers + 4 * from, 4 * n, refusals + from, n) != (uint64_t)n << 8)
        fail("Dagglehurst refuses");
}

static void convert(int converter, enum way way, const struct grid *grid, size_t from, size_t n) {
    if (converter == OURS)
        convert_ours(way, grid, from, n);
    else if (converter == PLAIN)
        (way == TO83 ? plain_to83 : plain_to27)(grid, (way == TO83 ? points27 : points83) + 2 * from, plain_answers + 4 * from, n);
    else
        (way == TO83 ? proj_to83 : proj_to27)(lats + from, lons + from, n);
}

static void restore_proj_input(enum way way, size_t n) {
    memcpy(lats, way == TO83 ? lats27 : lats83, n * sizeof *lats);
    memcpy(lons, way == TO83 ? lons27 : lons83, n * sizeof *lons);
}

// ---- Agreement, before anything is timed ----

// The greatest difference between PROJ's coordinates and Dagglehurst's answers, in hundred-thousandths of an arc second.
static double proj_difference(enum way way) {
    double second = way == TO83 ? 1e5 : 1e3, greatest = 0;
    for (size_t k = 0; k < MOST; k++) {
        double lat = fabs(lats[k] / pi * 648000 * second - (double)answers[4 * k]);
        double lon = fabs(lons[k] / pi * 648000 * second - (double)answers[4 * k + 1]);
        // written so that what is no number counts as beyond
        if (!(lat <= greatest))
            greatest = lat;
        if (!(lon <= greatest))
            greatest = lon;
    }
    return greatest * 1e5 / second;
}

// The coordinates of the answers, without the signs.
static void coordinates(int64_t *to) {
    for (size_t k = 0; k < MOST; k++) {
        to[2 * k] = answers[4 * k];
        to[2 * k + 1] = answers[4 * k + 1];
    }
}

static int answers_are_points27(void) {
    static int64_t back[2 * MOST];
    coordinates(back);
    return memcmp(back, points27, sizeof back) == 0;
}

// Converts all points once with Dagglehurst and with plain C, and compares.
static void agree_with_plain(enum way way, const struct grid *grid) {
    convert(OURS, way, grid, 0, MOST);
    convert(PLAIN, way, grid, 0, MOST);
    for (size_t k = 0; k < MOST; k++)
        if (refusals[k] != 0)
            fail("Dagglehurst refuses a point");
    // the signs too; on the way back those of the way there, which have to stay
    if (memcmp(answers, plain_answers, sizeof answers) != 0)
        fail("Dagglehurst and plain C differ");
    if (way == TO27 && !answers_are_points27())
        fail("the way back does not lead to the points");
}

// The same with every converter. Answers PROJ's difference.
static double agree(enum way way, const struct grid *grid) {
    agree_with_plain(way, grid);
    if (!PROJ_INSTALLED)
        return 0;
    restore_proj_input(way, MOST);
    convert(PROJ, way, grid, 0, MOST);
    double difference = proj_difference(way);
    // half a unit from rounding the figure once, the rest from PROJ's floats
    if (!(difference < 0.6))
        fail("Dagglehurst and PROJ differ by more than rounding");
    return difference;
}

// Spreads points over the grid and makes their NAD 83 figures. Prints what the comparison came to. Every buffer is written here, so that
// the timed parts meet no page for the first time.
static void prepare(const char *name, const struct grid *grid, const char *folder) {
    spread_points(grid);
    to_radians(points27, 1e3, lats27, lons27);
    proj_open(grid, folder);
    double there = agree(TO83, grid);
    coordinates(points83);
    to_radians(points83, 1e5, lats83, lons83);
    double back = agree(TO27, grid);
    printf("%s grid, %zu nodes. Answers and signs: plain C the same", name, grid->nodes);
    if (PROJ_INSTALLED)
        printf(", PROJ within %.4f (to83) and %.4f (to27)", there, back);
    printf("\n");
}

// A grid across the 180th meridian is compared with plain C alone, and not timed.
static void agree_across(void) {
    static struct grid grid;
    random_grid(&grid, 641000000, 32, 64);
    spread_points(&grid);
    agree_with_plain(TO83, &grid);
    coordinates(points83);
    agree_with_plain(TO27, &grid);
    printf("random grid across the 180th meridian, %zu nodes. Answers and signs: plain C the same\n", grid.nodes);
}

// ---- Times ----

static double seconds(void) {
    struct timespec t;
    clock_gettime(CLOCK_PROCESS_CPUTIME_ID, &t);
    return (double)t.tv_sec + 1e-9 * (double)t.tv_nsec;
}

// Points per second of each converter in calls of n points: the best of some repetitions, the converters taking turns.
static void measure(enum way way, const struct grid *grid, size_t n, double *speed) {
    // a short call is made many times, each on points of its own, to have something to time
    size_t calls = n >= 100000 ? 1 : n >= 100 ? 100000 / n : 1000;
    for (int c = 0; c < CONVERTERS; c++)
        speed[c] = 0;
    for (int repetition = 0; repetition < REPETITIONS; repetition++)
        for (int c = 0; c < (PROJ_INSTALLED ? CONVERTERS : PROJ); c++) {
            if (c == PROJ)
                restore_proj_input(way, calls * n);
            double start = seconds();
            for (size_t k = 0; k < calls; k++)
                convert(c, way, grid, k * n, n);
            double now = (double)(calls * n) / (seconds() - start);
            if (now > speed[c])
                speed[c] = now;
        }
}

static void print_heading(void) {
    printf("%9s | %-33s | %s\n", "points", "to83", "to27");
    const char *format = "%9s | %13s  %8s  %8s | %13s  %8s  %8s\n";
    printf(format, "in each", "Dagglehurst", "ratio to", "ratio to", "Dagglehurst", "ratio to", "ratio to");
    printf(format, "call", "points/s", "plain C", "PROJ", "points/s", "plain C", "PROJ");
}

static void print_speeds(const double *speed) {
    printf(" | %13.0f  %8.3g", speed[OURS], speed[OURS] / speed[PLAIN]);
    if (PROJ_INSTALLED)
        printf("  %8.3g", speed[OURS] / speed[PROJ]);
    else
        printf("  %8s", "-");
}

// Prints a row for each number of points. Leaves the speeds of the last row, the million.
static void print_rows(const struct grid *grid, double speed[WAYS][CONVERTERS]) {
    static const size_t numbers[] = {1, 10, 1000, 100000, MOST};
    for (size_t k = 0; k < sizeof numbers / sizeof numbers[0]; k++) {
        measure(TO83, grid, numbers[k], speed[TO83]);
        measure(TO27, grid, numbers[k], speed[TO27]);
        printf("%9zu", numbers[k]);
        print_speeds(speed[TO83]);
        print_speeds(speed[TO27]);
        printf("\n");
        fflush(stdout);
    }
}

static void print_target(int other, const char *name, double there, double back, double speed[WAYS][CONVERTERS]) {
    double to83 = speed[TO83][OURS] / speed[TO83][other], to27 = speed[TO27][OURS] / speed[TO27][other];
    printf("by the speed of %s: %.3f (to83, target %.1f) and %.3f (to27, target %.1f), %s\n", name, to83, there, to27, back,
           to83 >= there && to27 >= back ? "met" : "NOT MET");
}

int main(int argc, char **argv) {
    if (argc != 3)
        fail("usage: points GRID FOLDER");
    static struct grid grids[4];
    memset(ways[TO83], DAGGLEHURST_TO83, MOST);
    memset(ways[TO27], DAGGLEHURST_TO27, MOST);
    read_grid(&grids[0], argv[1]);
    random_grid(&grids[1], -298800000, 2, 2);
    random_grid(&grids[2], -298800000, 16, 16);
    random_grid(&grids[3], -298800000, 32, 64);

    printf("PROJ: %s. Processor time, best of %d repetitions, the converters taking turns. All buffers were written before.\n",
           proj_version(), REPETITIONS);
    printf("A ratio is Dagglehurst's points per second by the other's. PROJ's differences are the greatest of %d points, in\n"
           "hundred-thousandths of an arc second; 0.5 of them comes from the rounding of the NAD 83 figure.\n\n", MOST);
    print_heading();
    double speed[WAYS][CONVERTERS];
    for (int g = 0; g < 4; g++) {
        prepare(g == 0 ? "Georgia" : "random", &grids[g], argv[2]);
        print_rows(&grids[g], speed);
        proj_close();
    }

    agree_across();

    printf("\n%d points on %zu nodes:\n", MOST, grids[3].nodes);
    print_target(PLAIN, "plain C", 0.7, 0.7, speed);
    if (PROJ_INSTALLED)
        print_target(PROJ, "PROJ", 8, 5.5, speed);
    else
        printf("by the speed of PROJ: not measured, PROJ is not installed\n");
    return 0;
}
