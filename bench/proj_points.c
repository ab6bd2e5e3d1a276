// PROJ's array loop on the same grid, for bench/points. PROJ reads grids from files, so the grid is written as an NTv2 file.
#include <proj.h>
#include <stdio.h>
#include <stdlib.h>
#include <string.h>

#include "points.h"

static PJ_CONTEXT *context;
static PJ *shift;

// An NTv2 record: a name of eight characters, and a value of eight bytes.
static void record(FILE *file, const char *name, const void *value, size_t bytes, char fill) {
    char field[16];
    memset(field, ' ', 8);
    memcpy(field, name, strlen(name));
    memset(field + 8, fill, 8);
    memcpy(field + 8, value, bytes);
    fwrite(field, sizeof field, 1, file);
}

static void whole(FILE *file, const char *name, int32_t value) { record(file, name, &value, sizeof value, 0); }
static void real(FILE *file, const char *name, double value) { record(file, name, &value, sizeof value, 0); }
static void words(FILE *file, const char *name, const char *value) { record(file, name, value, strlen(value), ' '); }

static void write_overview(FILE *file) {
    whole(file, "NUM_OREC", 11);
    whole(file, "NUM_SREC", 11);
    whole(file, "NUM_FILE", 1);
    words(file, "GS_TYPE", "SECONDS");
    words(file, "VERSION", "NTv2.0");
    words(file, "SYSTEM_F", "NAD27");
    words(file, "SYSTEM_T", "NAD83");
    real(file, "MAJOR_F", 6378206.4);
    real(file, "MINOR_F", 6356583.8);
    real(file, "MAJOR_T", 6378137.0);
    real(file, "MINOR_T", 6356752.3141);
}

// NTv2 counts longitude positive west, in arc seconds.
static void write_subgrid(FILE *file, const int64_t *header) {
    words(file, "SUB_NAME", "POINTS");
    words(file, "PARENT", "NONE");
    words(file, "CREATED", "");
    words(file, "UPDATED", "");
    real(file, "S_LAT", (double)header[0] / 1e3);
    real(file, "N_LAT", (double)(header[0] + (header[4] - 1) * header[2]) / 1e3);
    real(file, "E_LONG", (double)-(header[1] + (header[5] - 1) * header[3]) / 1e3);
    real(file, "W_LONG", (double)-header[1] / 1e3);
    real(file, "LAT_INC", (double)header[2] / 1e3);
    real(file, "LONG_INC", (double)header[3] / 1e3);
    whole(file, "GS_COUNT", (int32_t)(header[4] * header[5]));
}

// Rows from the south as in Dagglehurst, but each row from east to west. Two shifts and two accuracies for each node.
static void write_nodes(FILE *file, const struct grid *grid) {
    int64_t rows = grid->header[4], cols = grid->header[5];
    for (int64_t row = 0; row < rows; row++)
        for (int64_t col = cols - 1; col >= 0; col--) {
            int64_t k = row * cols + col;
            float node[4] = {(float)((double)grid->lat[k] / 1e5), (float)((double)-grid->lon[k] / 1e5), 0, 0};
            fwrite(node, sizeof node, 1, file);
        }
}

void proj_open(const struct grid *grid, const char *folder) {
    char path[1024], definition[1100];
    // the context keeps grids by their names, so each grid gets a context of its own
    static int number;
    snprintf(path, sizeof path, "%s/grid%d.gsb", folder, number++);
    FILE *file = fopen(path, "wb");
    if (file == NULL) {
        perror(path);
        exit(2);
    }
    write_overview(file);
    write_subgrid(file, grid->header);
    write_nodes(file, grid);
    words(file, "END", "");
    fclose(file);

    snprintf(definition, sizeof definition, "+proj=hgridshift +grids=%s", path);
    context = proj_context_create();
    shift = proj_create(context, definition);
    if (shift == NULL) {
        fprintf(stderr, "PROJ does not take the grid\n");
        exit(2);
    }
}

void proj_close(void) {
    proj_destroy(shift);
    proj_context_destroy(context);
}

void proj_to83(double *lats, double *lons, size_t n) {
    proj_trans_generic(shift, PJ_FWD, lons, sizeof *lons, n, lats, sizeof *lats, n, NULL, 0, 0, NULL, 0, 0);
}

void proj_to27(double *lats, double *lons, size_t n) {
    proj_trans_generic(shift, PJ_INV, lons, sizeof *lons, n, lats, sizeof *lats, n, NULL, 0, 0, NULL, 0, 0);
}

const char *proj_version(void) { return proj_info().version; }
