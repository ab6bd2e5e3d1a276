// What bench/points.c measures beside Dagglehurst: plain C without checks, and PROJ.
#ifndef POINTS_H
#define POINTS_H

#include <stddef.h>
#include <stdint.h>

// A grid as dagglehurst.h has it: south, west, dlat, dlon, rows, cols, and the shifts of its nodes.
struct grid {
    int64_t header[6];
    int64_t lat[2048], lon[2048];
    size_t nodes;
};

// n points, latitude and longitude one after the other. Each answer has four places, as in dagglehurst.h: latitude, longitude and, to
// NAD 83, the sign of each; the way back leaves the last two as they were.
void plain_to83(const struct grid *grid, const int64_t *points, int64_t *answers, size_t n);
void plain_to27(const struct grid *grid, const int64_t *points, int64_t *answers, size_t n);

// PROJ on the same grid, written to an NTv2 file in `folder`. Coordinates are in radians and are converted in place.
void proj_open(const struct grid *grid, const char *folder);
void proj_to83(double *lats, double *lons, size_t n);
void proj_to27(double *lats, double *lons, size_t n);
void proj_close(void);
const char *proj_version(void);

#endif
