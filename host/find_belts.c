/*
 * Closes a small hall and prints the belts that a tote takes from each station to each other one: the length of the way
 * and the stations on it, or - where no belt leads there.
 */
#include "traceback.h"

#include <stdio.h>

enum { STATIONS = 5, WORDS = STATIONS * STATIONS, NO_BELT = 65535 };

/* Belt lengths in metres; row is from, column is to. The diagonal does not count. */
static const uint16_t belts[WORDS] = {
    0,       12,      NO_BELT, NO_BELT, 40, /* intake */
    NO_BELT, 0,       7,       NO_BELT, NO_BELT,
    NO_BELT, NO_BELT, 0,       9,       NO_BELT,
    5,       NO_BELT, NO_BELT, 0,       NO_BELT,
    NO_BELT, NO_BELT, NO_BELT, NO_BELT, 0, /* outlet: no belt leads back */
};

static uint32_t print_way(const uint16_t *closed, size_t from, size_t to)
{
    uint16_t list[STATIONS];
    size_t length;
    uint32_t outcome =
        traceback_way(PATHS_DISTANCE, STATIONS, belts, WORDS, closed, WORDS, from, to, list, STATIONS, &length);
    if (outcome == TRACEBACK_NO_WAY) {
        printf("%zu to %zu: -\n", from, to);
        return PATHS_OK;
    }
    if (outcome != PATHS_OK)
        return outcome;
    printf("%zu to %zu: %u over", from, to, (unsigned)closed[from * STATIONS + to]);
    for (size_t at = 0; at < length; at++)
        printf(" %u", (unsigned)list[at]);
    putchar('\n');
    return PATHS_OK;
}

int main(void)
{
    /* The archives are for x86-64, where a word's low byte comes first: the bytes of a table are the table's own. */
    uint16_t closed[WORDS];
    uint32_t outcome = paths_eliminate(PATHS_DISTANCE, STATIONS, (const uint8_t *)belts, sizeof belts,
                                       (uint8_t *)closed, sizeof closed);
    for (size_t from = 0; from < STATIONS; from++)
        for (size_t to = 0; to < STATIONS && outcome == PATHS_OK; to++)
            if (from != to)
                outcome = print_way(closed, from, to);
    if (outcome != PATHS_OK) {
        fprintf(stderr, "refused: %u\n", (unsigned)outcome);
        return 1;
    }
    return 0;
}
