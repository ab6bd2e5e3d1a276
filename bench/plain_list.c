// The list as a plain C program, for bench/list to compare times and replies with: fgets, strtoll, printf. It answers and refuses
// request lines as the list does, and trusts sheet.txt to be a grid that passes the checks. A byte 0 in a line is beyond it.
#include <stdio.h>
#include <stdlib.h>
#include <string.h>

typedef long long number;

// The grid: edges and spacings in thousandths of an arc second, shifts in hundred-thousandths.
static number south, west, dlat, dlon, rows, cols, width, height;
static number lat_shifts[2048], lon_shifts[2048];

// Longitudes are places on a circle: half a turn, in thousandths and in hundred-thousandths of an arc second.
static const number half27 = 648000000, half83 = 64800000000;

// Whether a number names a place on the circle.
static int is_place(number lon, number half) { return -half <= lon && lon < half; }

// The name of the place at a number that is less than a turn past an end of the range.
static number named(number lon, number half) {
    if (lon >= half)
        return lon - 2 * half;
    if (lon < -half)
        return lon + 2 * half;
    return lon;
}

static int read_grid(void) {
    char line[256];
    int nodes = 0;
    FILE *sheet = fopen("sheet.txt", "r");
    if (!sheet)
        return -1;
    while (fgets(line, sizeof line, sheet)) {
        if (!strncmp(line, "node=", 5) && nodes < 2048) {
            char *comma;
            lat_shifts[nodes] = strtoll(line + 5, &comma, 10);
            lon_shifts[nodes] = strtoll(comma + 1, 0, 10);
            nodes++;
        }
        sscanf(line, "south=%lld", &south);
        sscanf(line, "west=%lld", &west);
        sscanf(line, "dlat=%lld", &dlat);
        sscanf(line, "dlon=%lld", &dlon);
        sscanf(line, "rows=%lld", &rows);
        sscanf(line, "cols=%lld", &cols);
    }
    fclose(sheet);
    width = (cols - 1) * dlon;
    height = (rows - 1) * dlat;
    return nodes;
}

// A shift, rounded, and the sign of the rounded shift minus the exact fraction.
struct shift {
    number rounded, sign;
};

// The bilinear shift in a cell, rounded to the nearest, a tie to the even number: an odd quotient takes twice the remainder one further
// from zero, and that decides a tie. Without branches, which the processor could not foretell.
static struct shift interpolate(const number *sw, number a, number b, number c, number d) {
    const number *nw = sw + cols;
    number denominator = (a + b) * (c + d);
    number numerator = (sw[0] * b + sw[1] * a) * d + (nw[0] * b + nw[1] * a) * c;
    number q = numerator / denominator, r = numerator % denominator;
    number twice = 2 * r + q % 2;
    number nearest = q + (twice > denominator) - (twice < -denominator);
    number difference = nearest * denominator - numerator;
    number above = difference > 0, below = difference < 0;
    return (struct shift){nearest, above - below};
}

// The shifts at the point x east and y north of the southwest corner.
static void shift_at(number x, number y, struct shift *lat, struct shift *lon) {
    number col = x / dlon, row = y / dlat;
    if (col > cols - 2)
        col = cols - 2;
    if (row > rows - 2)
        row = rows - 2;
    number a = x - col * dlon, c = y - row * dlat;
    number sw = row * cols + col;
    *lat = interpolate(lat_shifts + sw, a, dlon - a, c, dlat - c);
    *lon = interpolate(lon_shifts + sw, a, dlon - a, c, dlat - c);
}

// Each of these prints a reply and answers whether it is an answer.
static int refuse(int why) {
    printf("no=%d\n", why);
    return 0;
}

static int to83(number lat, number lon) {
    number x = lon - west, y = lat - south;
    struct shift lat_shift, lon_shift;
    // eastward from the west edge
    if (x < 0)
        x += 2 * half27;
    if (!is_place(lon, half27) || y < 0 || x > width || y > height)
        return refuse(6);
    shift_at(x, y, &lat_shift, &lon_shift);
    number north = 100 * lat + lat_shift.rounded, east = named(100 * lon + lon_shift.rounded, half83);
    printf("ok83=%lld,%lld,%lld,%lld\n", north, east, lat_shift.sign, lon_shift.sign);
    return 1;
}

// A hundredth, rounded, and moved to the nearest edge where it lies outside.
static number hundredth(number v, number limit) {
    if (v + 50 < 0)
        return 0;
    number q = (v + 50) / 100;
    return q > limit ? limit : q;
}

// Six rounds at most, and the point that they reach is the answer if its own answer is the figure.
static int to27(number lat, number lon) {
    if (!is_place(lon, half83))
        return refuse(7);
    // a figure may lie west of the west edge: the nearer way round
    number east = named(lon - 100 * west, half83), north = lat - 100 * south;
    struct shift lat_shift, lon_shift;
    number x = hundredth(east, width), y = hundredth(north, height);
    for (int k = 0; k < 6; k++) {
        shift_at(x, y, &lat_shift, &lon_shift);
        number nx = hundredth(east - lon_shift.rounded, width), ny = hundredth(north - lat_shift.rounded, height);
        if (nx == x && ny == y)
            break;
        x = nx;
        y = ny;
    }
    shift_at(x, y, &lat_shift, &lon_shift);
    if (100 * x + lon_shift.rounded != east || 100 * y + lat_shift.rounded != north)
        return refuse(7);
    printf("ok27=%lld,%lld\n", y + south, named(x + west, half27));
    return 1;
}

// A number of an optional minus and 1 to 11 digits, with no leading zero and no -0, and where it ends; 0 where there is none.
static char *read_number(char *text, number *value) {
    char *digits = text + (*text == '-'), *end;
    if (*digits < '0' || *digits > '9')
        return 0;
    *value = strtoll(text, &end, 10);
    if (end - digits > 11 || (*digits == '0' && end - text > 1))
        return 0;
    return end;
}

static int reply(char *line) {
    number lat, lon;
    int there = !strncmp(line, "to83=", 5);
    if (!there && strncmp(line, "to27=", 5))
        return refuse(1);
    char *comma = read_number(line + 5, &lat);
    if (!comma || *comma != ',')
        return refuse(1);
    char *end = read_number(comma + 1, &lon);
    if (!end || *end != '\n')
        return refuse(1);
    return there ? to83(lat, lon) : to27(lat, lon);
}

int main(void) {
    // 64 bytes, the newline and the ending 0
    char line[66];
    number answered = 0, refused = 0;
    int nodes = read_grid();
    if (nodes < 0) {
        puts("no=9,0");
        return 0;
    }
    printf("sheet=%d\n", nodes);
    while (fgets(line, sizeof line, stdin)) {
        // the rest of a line that is too long
        if (!strchr(line, '\n'))
            for (int c = getchar(); c != EOF && c != '\n';)
                c = getchar();
        if (reply(line))
            answered++;
        else
            refused++;
    }
    printf("done=%lld,%lld\n", answered, refused);
    return 0;
}
