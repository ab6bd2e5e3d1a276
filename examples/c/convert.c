/* Converts between NAD 27 and NAD 83 in C: reads a grid, converts a point there and back, converts an array of points, and shows
 * what a refusal looks like.
 *
 *     cc -I LIBRARY/include convert.c LIBRARY/lib/libdagglehurst.a -o convert && ./convert ../bulletin/sheet.txt
 */
#include <stdio.h>
#include <string.h>

#include "dagglehurst.h"

enum { POINTS = 4 };

/* A grid in memory. Node slices of this length take every grid, so the reader never lacks room. */
static int64_t header[DAGGLEHURST_HEADER], lat[DAGGLEHURST_MAX_NODES], lon[DAGGLEHURST_MAX_NODES];

/* One byte more than any grid's text, so that a longer file is refused and not read in part. */
static uint8_t text[DAGGLEHURST_MAX_TEXT + 1];

static uint64_t read_grid(size_t text_length) {
    return dagglehurst_read(text, text_length, header, DAGGLEHURST_HEADER, lat, DAGGLEHURST_MAX_NODES, lon, DAGGLEHURST_MAX_NODES);
}

static void show_refusal(const char *what, uint64_t reply) {
    printf("%s: refusal %u, place %llu\n", what, dagglehurst_refusal(reply), (unsigned long long)dagglehurst_value(reply));
}

/* Prints the NAD 27 point or the refusal that a call left. */
static void show27(const char *what, uint64_t reply, const int64_t *point) {
    if (dagglehurst_refusal(reply) == 0)
        printf("%s: %lld,%lld\n", what, (long long)point[0], (long long)point[1]);
    else
        show_refusal(what, reply);
}

/* Prints the NAD 83 figure with its two signs, the latitude's first, or the refusal. A sign is read so: -1, the rounded shift is below
 * the exact one; 0, the shift is exact; 1, the rounded shift is above the exact one. */
static void show83(const char *what, uint64_t reply, const int64_t *figure) {
    if (dagglehurst_refusal(reply) == 0)
        printf("%s: %lld,%lld signs %d,%d\n", what, (long long)figure[0], (long long)figure[1], (int)figure[2], (int)figure[3]);
    else
        show_refusal(what, reply);
}

/* An array is converted with one check of the grid. Each point has a way and a refusal of its own, and four numbers for its answer. */
static void show_array(size_t nodes) {
    const uint8_t ways[POINTS] = {DAGGLEHURST_TO83, DAGGLEHURST_TO83, DAGGLEHURST_TO83, DAGGLEHURST_TO83};
    const int64_t points[2 * POINTS] = {
        117900000, -298800000, /* the southwest corner */
        118125000, -298575000, /* the middle of the cell */
        118350001, -298350000, /* a thousandth of an arc second north of the grid */
        118350000, -298350000, /* the northeast corner */
    };
    int64_t answers[4 * POINTS];
    uint8_t refusals[POINTS];

    uint64_t reply = dagglehurst_convert(header, DAGGLEHURST_HEADER, lat, nodes, lon, nodes, ways, POINTS, points, 2 * POINTS,
                                         answers, 4 * POINTS, refusals, POINTS);
    printf("array: %llu points\n", (unsigned long long)dagglehurst_value(reply));
    for (size_t k = 0; k < POINTS; k++) {
        const int64_t *answer = answers + 4 * k;
        if (refusals[k] == 0)
            printf("point %zu: %lld,%lld signs %d,%d\n", k, (long long)answer[0], (long long)answer[1], (int)answer[2], (int)answer[3]);
        else
            printf("point %zu: refusal %u\n", k, refusals[k]);
    }
}

int main(int argc, char **argv) {
    FILE *file = argc == 2 ? fopen(argv[1], "rb") : NULL;
    if (file == NULL) {
        fprintf(stderr, "usage: convert GRID\n");
        return 1;
    }
    size_t text_length = fread(text, 1, sizeof text, file);
    fclose(file);

    uint64_t reply = read_grid(text_length);
    size_t nodes = dagglehurst_value(reply);
    if (dagglehurst_refusal(reply) != 0) {
        fprintf(stderr, "the grid: refusal %u, place %zu\n", dagglehurst_refusal(reply), nodes);
        return 1;
    }
    printf("grid: %zu nodes\n", nodes);

    int64_t figure[4] = {0, 0, 0, 0}, point[2] = {0, 0};
    reply = dagglehurst_to83(header, DAGGLEHURST_HEADER, lat, nodes, lon, nodes, 118210250, -298581930, figure, 4);
    show83("mast in NAD 83", reply, figure);
    reply = dagglehurst_to27(header, DAGGLEHURST_HEADER, lat, nodes, lon, nodes, figure[0], figure[1], point, 2);
    show27("mast taken back", reply, point);
    reply = dagglehurst_to27(header, DAGGLEHURST_HEADER, lat, nodes, lon, nodes, figure[0] + 1, figure[1], point, 2);
    show27("one figure north", reply, point);

    show_array(nodes);

    /* A semicolon for the first comma: line 9, the first node, is no longer of its form. */
    uint8_t *comma = memchr(text, ',', text_length);
    *comma = ';';
    show_refusal("damaged text", read_grid(text_length));
    return 0;
}
