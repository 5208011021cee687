/* Road files: the text form of the ninth DIMACS shortest path challenge, as the proved archive libraudvisk.a reads it. */
#ifndef ROAD_H
#define ROAD_H

#include <stddef.h>
#include <stdint.h>

#ifdef __cplusplus
extern "C" {
#endif

/* The words of the table's buffer: room for 128 rows of 128 words. */
#define ROAD_TABLE_WORDS 16384

/* What a call returns. A line is tested for 21 and then for 22; the first line that is refused gives the number. */
enum road_outcome {
    ROAD_OK = 0,
    ROAD_BAD_FORM = 21,  /* table_len is not ROAD_TABLE_WORDS; a line of no known form, a blank one, an arc before the p line, a
                            second p line; at the end, no p line */
    ROAD_BAD_POINT = 22, /* a point is not 1 to POINTS, or POINTS is not 1 to 128 */
    ROAD_BAD_COUNT = 23  /* at the end, the count of a lines is not ARCS */
};

/*
 * Reads a road file into its distance table: POINTS * POINTS words, row by row, row is from, column is to. A pair with no arc
 * is 65535 and the diagonal 0; of several arcs for a pair the shortest stands, and a length above 65534 is 65534. The words after
 * the table are 0. The number of points goes to points. The table can be lent to paths_eliminate as it stands, with
 * PATHS_DISTANCE and the size *points.
 *
 * No pointer may be null, also where its length is 0. table and points must not overlap each other or the file. Each buffer must
 * hold as many bytes or words as its length says, also in a call that is refused. The file may be of any length.
 *
 * The call allocates nothing. Measured, it needs less than 1 KB of stack; where the loader binds memset late, the first call
 * needs some 4 KB more.
 *
 * Returns ROAD_OK, or the number of the refusal; a refused call leaves points as it was and every word of the table 0.
 */
uint32_t road_read(const uint8_t *file, size_t file_len, uint16_t *table, size_t table_len, size_t *points);

#ifdef __cplusplus
}
#endif

#endif
