// The conversions in plain C, for bench/points to compare times and answers with: the same exact arithmetic, and no checks at all. The
// grid is trusted to pass the checks, every point to lie on the grid, and every NAD 83 figure to be the answer of a point.
#include "points.h"

// Longitudes are places on a circle: half a turn, in thousandths and in hundred-thousandths of an arc second.
static const int64_t half27 = 648000000, half83 = 64800000000;

// The name, from -half to half - 1, of the place at a number that is less than a turn past an end of that range.
static inline int64_t named(int64_t number, int64_t half) {
    if (number >= half)
        return number - 2 * half;
    if (number < -half)
        return number + 2 * half;
    return number;
}

// The distance eastward from one place to another.
static inline int64_t eastward(int64_t from, int64_t to, int64_t half) {
    int64_t distance = to - from;
    if (distance < 0)
        distance += 2 * half;
    return distance;
}

// A shift, rounded, and the sign of the rounded shift minus the exact fraction.
struct shift {
    int64_t rounded, sign;
};

// The nearest whole number to a fraction, a tie going to the even one: an odd quotient takes twice the remainder one further from zero,
// and that decides a tie. Without branches: the processor could not foretell them, and the time would depend on the signs of the shifts.
static inline struct shift rounded(int64_t numerator, int64_t denominator) {
    int64_t q = numerator / denominator, r = numerator % denominator;
    int64_t twice = 2 * r + q % 2;
    int64_t nearest = q + (twice > denominator) - (twice < -denominator);
    int64_t difference = nearest * denominator - numerator;
    int64_t above = difference > 0, below = difference < 0;
    return (struct shift){nearest, above - below};
}

// Along one row of a cell, whose west node comes first.
static inline int64_t row_sum(const int64_t *shifts, int64_t a, int64_t b) {
    return shifts[0] * b + shifts[1] * a;
}

// The shifts at the point x east and y north of the southwest corner.
static inline void shift_at(const struct grid *grid, int64_t x, int64_t y, struct shift *lat, struct shift *lon) {
    int64_t dlat = grid->header[2], dlon = grid->header[3], rows = grid->header[4], cols = grid->header[5];
    int64_t row = y / dlat, col = x / dlon;
    // the north and the east edge belong to the last cells
    if (row > rows - 2)
        row = rows - 2;
    if (col > cols - 2)
        col = cols - 2;
    int64_t a = x - col * dlon, b = dlon - a, c = y - row * dlat, d = dlat - c;
    int64_t sw = row * cols + col, nw = sw + cols;
    *lat = rounded(row_sum(grid->lat + sw, a, b) * d + row_sum(grid->lat + nw, a, b) * c, dlat * dlon);
    *lon = rounded(row_sum(grid->lon + sw, a, b) * d + row_sum(grid->lon + nw, a, b) * c, dlat * dlon);
}

void plain_to83(const struct grid *grid, const int64_t *restrict points, int64_t *restrict answers, size_t n) {
    int64_t south = grid->header[0], west = grid->header[1];
    for (size_t k = 0; k < n; k++) {
        struct shift lat, lon;
        shift_at(grid, eastward(west, points[2 * k + 1], half27), points[2 * k] - south, &lat, &lon);
        answers[4 * k] = 100 * points[2 * k] + lat.rounded;
        answers[4 * k + 1] = named(100 * points[2 * k + 1] + lon.rounded, half83);
        answers[4 * k + 2] = lat.sign;
        answers[4 * k + 3] = lon.sign;
    }
}

// A hundredth, rounded, and moved to the nearest edge where it lies outside.
static inline int64_t hundredth(int64_t v, int64_t limit) {
    int64_t q = (v + 50) / 100;
    return q < 0 ? 0 : q > limit ? limit : q;
}

// A fixed-point iteration: the point is the figure less the shift at the point. What it settles on is not confirmed.
void plain_to27(const struct grid *grid, const int64_t *restrict points, int64_t *restrict answers, size_t n) {
    int64_t south = grid->header[0], west = grid->header[1];
    int64_t height = (grid->header[4] - 1) * grid->header[2], width = (grid->header[5] - 1) * grid->header[3];
    for (size_t k = 0; k < n; k++) {
        // a figure may lie west of the west edge: the nearer way round
        int64_t north = points[2 * k] - 100 * south, east = named(points[2 * k + 1] - 100 * west, half83);
        int64_t y = hundredth(north, height), x = hundredth(east, width);
        for (int round = 0; round < 6; round++) {
            struct shift lat, lon;
            shift_at(grid, x, y, &lat, &lon);
            int64_t next_y = hundredth(north - lat.rounded, height), next_x = hundredth(east - lon.rounded, width);
            if (next_y == y && next_x == x)
                break;
            y = next_y;
            x = next_x;
        }
        answers[4 * k] = y + south;
        answers[4 * k + 1] = named(x + west, half27);
    }
}
