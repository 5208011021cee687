/*
 * Reads an office's drawing of a hall, closes it and prints the length of the shortest way for each pair of points, - where
 * there is none; then the number of a drawing that is refused. It ends with status 1 where the first is refused, or the second leaves
 * anything but zeros in the table or changes the number of points.
 */
#include "paths.h"
#include "road.h"

#include <stdio.h>
#include <string.h>

static const char office[] = "c intake, sorter, dock\n"
                             "p sp 3 4\n"
                             "a 1 2 12\n"
                             "a 2 3 7\n"
                             "a 1 3 40\n"
                             "a 2 3 9\n";
static const char refused[] = "p sp 3 1\na 1 4 12\n";

static uint16_t table[ROAD_TABLE_WORDS], closed[ROAD_TABLE_WORDS];

static uint32_t read_text(const char *text, size_t *points)
{
    return road_read((const uint8_t *)text, strlen(text), table, ROAD_TABLE_WORDS, points);
}

int main(void)
{
    size_t points = 0;
    uint32_t outcome = read_text(office, &points);
    size_t bytes = 2 * points * points;
    /* On x86-64 a word's low byte comes first: the bytes of a table are the table's own. */
    if (outcome == ROAD_OK)
        outcome = paths_eliminate(PATHS_DISTANCE, points, (const uint8_t *)table, bytes, (uint8_t *)closed, bytes);
    if (outcome != PATHS_OK) {
        fprintf(stderr, "refused: %u\n", (unsigned)outcome);
        return 1;
    }
    for (size_t at = 0; at < points * points; at++) {
        if (closed[at] == 65535)
            printf("-");
        else
            printf("%u", (unsigned)closed[at]);
        putchar((at + 1) % points == 0 ? '\n' : ' ');
    }
    printf("refused: %u\n", (unsigned)read_text(refused, &points));
    for (size_t at = 0; at < ROAD_TABLE_WORDS; at++)
        if (table[at] != 0)
            return 1;
    return points != 3;
}
