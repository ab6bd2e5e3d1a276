/* Dagglehurst: points between NAD 27 and NAD 83, over one region's shift grid.
 *
 * Every function here is proved to do what is said of it, for every input, where the memory is lent as said below.
 *
 * FIGURES. Latitude is positive north, longitude positive EAST. A NAD 27 figure counts thousandths of an arc second, a NAD 83
 * figure hundred-thousandths.
 *
 * LONGITUDES are places on a circle, and each place has one number: in NAD 27 from -648,000,000, which is the 180th meridian, to
 * 647,999,999, in NAD 83 from -64,800,000,000 to 64,799,999,999. A number outside its range names no place. It is never reduced by a
 * turn, but refused: a west edge with 2, a point's longitude in NAD 27 with 6, a figure's in NAD 83 with 7.
 *
 * SIGNS. The shift at a point is an exact fraction; in a NAD 83 figure it is rounded to a whole number. On the way to NAD 83 the
 * answer has a sign for the latitude and one for the longitude: the sign of the rounded shift minus the exact fraction.
 *   -1  the rounded shift is below the exact one: the figure lies south or west of the exact place
 *    0  the answer's shift is exact
 *    1  the rounded shift is above the exact one: the figure lies north or east of the exact place
 * The way back takes the two coordinates alone and answers no signs.
 *
 * A GRID is a header and two slices of shifts (NAD 83 minus NAD 27, in hundred-thousandths of an arc second).
 *   header    six numbers: south, west, dlat, dlon, rows, cols; edges and spacings in thousandths of an arc second. Numbers behind
 *             the sixth are not looked at. A number that a shorter slice does not have counts as 0, so a header of fewer than six
 *             numbers always breaks a rule: it has no columns. The east edge lies (cols - 1) x dlon east of the west edge, on
 *             the circle: a grid may cross the 180th meridian.
 *   lat, lon  the latitude and the longitude shift of each node, from the southernmost row north, each row from west to east.
 *             Shifts behind the first rows x cols are not looked at.
 *
 * MEMORY. A slice is a pointer and the number of its elements; with 0 elements the pointer may be NULL. The pointer is aligned for
 * its elements. The caller owns all memory, and nothing is kept after the call. A slice that is written (no `const`) does not overlap
 * another slice of the same call, so points are not converted in place. Elements that are not said to be written stay as they were.
 * A REFUSED CALL CHANGES NOTHING. Calls that share no written memory may be made at the same time.
 *
 * THE REPLY of each function is one number. dagglehurst_refusal(reply) is 0 where the call answered, or else the number of the
 * refusal. dagglehurst_value(reply) is what the function answers, or else the place of the refusal. A value is at most 2^56 - 1,
 * which stands for every larger one.
 */
#ifndef DAGGLEHURST_H
#define DAGGLEHURST_H

#include <stddef.h>
#include <stdint.h>

#ifdef __cplusplus
extern "C" {
#endif

/* The numbers of the refusals, and their places. */
enum {
    DAGGLEHURST_FORM = 1,      /* a line of a grid's text is missing, extra or not of its form: its line, from 1.
                                * In the refusals of dagglehurst_convert: a way that does not exist */
    DAGGLEHURST_RULE = 2,      /* a rule of the header is broken: the first such rule, 1 to 8 */
    DAGGLEHURST_RANGE = 3,     /* a shift is beyond 6,000,000 either way: the lowest such node, from 0 */
    DAGGLEHURST_STEEP = 4,     /* a node is too steep to its east or north neighbour: the lowest such node */
    DAGGLEHURST_NODE_ROOM = 5, /* lat or lon has fewer than rows x cols elements: rows x cols */
    DAGGLEHURST_OFF_GRID = 6,  /* the NAD 27 point is off the grid, or its longitude is outside the range: 0 */
    DAGGLEHURST_NO_POINT = 7,  /* no point of the grid has this NAD 83 figure as its answer, or its longitude is outside the
                                * range: 0 */
    DAGGLEHURST_ROOM = 8,      /* a slice is too short: the elements needed. The slice is the room for a text (its elements are
                                * bytes), the answer, points, answers or refusals, the header that is read into, or the line or
                                * the state of a list in pieces */
    DAGGLEHURST_TWIST = 14     /* a cell's S1 - S2 - S3 + S4 (southwest, southeast, northwest, northeast), times 64, is above 100
                                * times the smaller spacing: the lowest southwest node of such a cell */
};

/* The ways of dagglehurst_convert. 0 is none, so that a way that nobody has filled in is refused. */
enum {
    DAGGLEHURST_TO83 = 1, /* a NAD 27 point to its NAD 83 figure */
    DAGGLEHURST_TO27 = 2  /* a NAD 83 figure back to its NAD 27 point */
};

/* The numbers of a header. */
#define DAGGLEHURST_HEADER 6
/* The most nodes that a grid has: node slices of this length take every grid. */
#define DAGGLEHURST_MAX_NODES 2048
/* No text that is accepted is longer. Read one byte more of a file, so that a longer one is not judged by its first part. */
#define DAGGLEHURST_MAX_TEXT 48000
/* The bytes of the line, and the numbers of the state, of a list in pieces. */
#define DAGGLEHURST_LINE 65
#define DAGGLEHURST_STATE 3
/* No line of a list is longer, with its newline: room for so many bytes for each byte of a piece is always enough. */
#define DAGGLEHURST_MAX_REPLY 53

/* 0 where the call answered, or the number of the refusal. */
static inline unsigned dagglehurst_refusal(uint64_t reply) { return (unsigned)(reply & 255); }

/* What the call answered, or the place of the refusal. */
static inline uint64_t dagglehurst_value(uint64_t reply) { return reply >> 8; }

/* Reads a grid's text. Writes the six numbers of its header to the front of `header` and its nodes to the front of `lat` and `lon`.
 * Answers the number of nodes.
 * Refuses 8 (place 6) where `header` has fewer than six elements; then, as the text goes on: 1 for the header lines, 2, 5, for each
 * node line 1 and then 3, 1 for the end line and what follows it, 4 and 14. */
uint64_t dagglehurst_read(const uint8_t *text, size_t text_length, int64_t *header, size_t header_length, int64_t *lat,
                          size_t lat_length, int64_t *lon, size_t lon_length);

/* Writes a grid's text to the front of `room`. Answers the number of bytes. There is one text for each grid.
 * Refuses 2, 5, 3, 4, 14, then 8 (place: the bytes needed). */
uint64_t dagglehurst_write(const int64_t *header, size_t header_length, const int64_t *lat, size_t lat_length, const int64_t *lon,
                           size_t lon_length, uint8_t *room, size_t room_length);

/* Checks a grid. Answers the number of nodes. Refuses 2, 5, 3, 4, 14. */
uint64_t dagglehurst_check(const int64_t *header, size_t header_length, const int64_t *lat, size_t lat_length, const int64_t *lon,
                           size_t lon_length);

/* Converts the NAD 27 point `north`, `east`. Writes four numbers to the front of `answer`: its NAD 83 figure, latitude and longitude,
 * then the latitude's sign and the longitude's. The figure is 100 times the point plus the shift there, an exact fraction rounded to
 * the nearest whole number, a tie to the even one. Where that carries the longitude past an end of its range, which is across the
 * 180th meridian, a turn of 129,600,000,000 is added or taken off. Answers 1.
 * Refuses 2, 5, 3, 4, 14, 6, then 8 (place 4) where `answer` has fewer than four elements. */
uint64_t dagglehurst_to83(const int64_t *header, size_t header_length, const int64_t *lat, size_t lat_length, const int64_t *lon,
                          size_t lon_length, int64_t north, int64_t east, int64_t *answer, size_t answer_length);

/* Takes the NAD 83 figure `north`, `east` back. Writes the one NAD 27 point of the grid whose answer it is, latitude and longitude,
 * to the front of `answer`. Answers 1.
 * Refuses 2, 5, 3, 4, 14, 7, then 8 (place 2) where `answer` has fewer than two elements. */
uint64_t dagglehurst_to27(const int64_t *header, size_t header_length, const int64_t *lat, size_t lat_length, const int64_t *lon,
                          size_t lon_length, int64_t north, int64_t east, int64_t *answer, size_t answer_length);

/* Converts many requests, both ways, with one check of the grid. There are ways_length requests, n. Request k is the way ways[k] and
 * the latitude points[2k] and longitude points[2k + 1], and has the four places from answers[4k] on. Where it has an answer, writes
 * latitude and longitude to answers[4k] and answers[4k + 1], and 0 to refusals[k]; on the way to NAD 83 also the latitude's sign to
 * answers[4k + 2] and the longitude's to answers[4k + 3], which the way back leaves as they were. Where it has none, leaves all four
 * as they were, and writes the number of its refusal to refusals[k]: 6 or 7, or 1 for a way that does not exist. Answers n.
 * Refuses 2, 5, 3, 4, 14, with no requests too; then 8: with place 2n where `points` has fewer than 2n elements, with 4n where
 * `answers` has fewer than 4n, with n where `refusals` has fewer than n. Numbers of `points` behind the first 2n are not looked at. */
uint64_t dagglehurst_convert(const int64_t *header, size_t header_length, const int64_t *lat, size_t lat_length, const int64_t *lon,
                             size_t lon_length, const uint8_t *ways, size_t ways_length, const int64_t *points,
                             size_t points_length, int64_t *answers, size_t answers_length, uint8_t *refusals,
                             size_t refusals_length);

/* Runs the list over request lines (`to83=LAT,LON` or `to27=LAT,LON`, each ended by a newline). Writes the whole list, from `sheet=`
 * to `done=`, to the front of `room`. A line that is answered gets `ok83=LAT,LON,SIGN,SIGN`, the latitude's sign first, or
 * `ok27=LAT,LON`; one that is refused gets `no=` and the number of the refusal. Answers the number of bytes.
 * Refuses 2, 5, 3, 4, 14, then 8 (place: the bytes needed). */
uint64_t dagglehurst_list(const int64_t *header, size_t header_length, const int64_t *lat, size_t lat_length, const int64_t *lon,
                          size_t lon_length, const uint8_t *requests, size_t requests_length, uint8_t *room, size_t room_length);

/* THE LIST IN PIECES: the same list as its requests come, in pieces cut anywhere. What dagglehurst_begin writes, then dagglehurst_feed
 * for each piece, then dagglehurst_finish, is byte for byte what dagglehurst_list writes for the pieces joined.
 *
 * Between the calls the list is in the caller's memory:
 *   line   at least 65 bytes: the line whose newline has not come yet, or 65 bytes of a longer one, which is refused whatever follows.
 *   state  at least three numbers: how many bytes of `line` these are, the lines answered, the lines refused. Three zeros are a list
 *          that no piece was fed to; `line` then may hold anything.
 * Any memory of these lengths is taken as a list: a length below 0 as 0, one above 65 as 65, and any totals, which stay at 2^63 - 1
 * when they have come there.
 *
 *     uint8_t line[DAGGLEHURST_LINE], piece[1024], room[1024 * DAGGLEHURST_MAX_REPLY];
 *     int64_t state[DAGGLEHURST_STATE] = {0, 0, 0};
 *     size_t n;
 *     uint64_t reply = dagglehurst_begin(header, 6, lat, 2048, lon, 2048, room, sizeof room);
 *     while (dagglehurst_refusal(reply) == 0) {
 *         fwrite(room, 1, dagglehurst_value(reply), stdout);
 *         n = fread(piece, 1, sizeof piece, stdin);
 *         if (n == 0)
 *             break;
 *         reply = dagglehurst_feed(header, 6, lat, 2048, lon, 2048, line, sizeof line, state, 3, piece, n, room, sizeof room);
 *     }
 *     if (dagglehurst_refusal(reply) == 0) {
 *         reply = dagglehurst_finish(line, sizeof line, state, 3, room, sizeof room);
 *         fwrite(room, 1, dagglehurst_value(reply), stdout);
 *     }
 */

/* Begins a list. Writes its first line, `sheet=` and the number of nodes, to the front of `room`. Answers the number of bytes.
 * Refuses 2, 5, 3, 4, 14, then 8 (place: the bytes needed). */
uint64_t dagglehurst_begin(const int64_t *header, size_t header_length, const int64_t *lat, size_t lat_length, const int64_t *lon,
                           size_t lon_length, uint8_t *room, size_t room_length);

/* Feeds the next piece of the requests to a list. Writes the replies to the lines that end in it to the front of `room`, the line
 * that is then under way to the front of `line` (bytes behind it stay), and its three numbers to the front of `state`. Answers the
 * number of bytes written to `room`.
 * Refuses 2, 5, 3, 4, 14, for an empty piece too: every call checks the grid; then 8, with place 65 where `line` has fewer than 65
 * bytes, 3 where `state` has fewer than three numbers, and the bytes needed where `room` is too short. A piece that was refused can
 * be fed again. */
uint64_t dagglehurst_feed(const int64_t *header, size_t header_length, const int64_t *lat, size_t lat_length, const int64_t *lon,
                          size_t lon_length, uint8_t *line, size_t line_length, int64_t *state, size_t state_length,
                          const uint8_t *piece, size_t piece_length, uint8_t *room, size_t room_length);

/* Ends a list. Writes its last lines to the front of `room`: `no=1` if a line is under way, since that has no newline, and the totals.
 * Answers the number of bytes. The list stays as it was: three zeros begin another.
 * Refuses 8, with the places of dagglehurst_feed. */
uint64_t dagglehurst_finish(const uint8_t *line, size_t line_length, const int64_t *state, size_t state_length, uint8_t *room,
                            size_t room_length);

#ifdef __cplusplus
}
#endif

#endif
