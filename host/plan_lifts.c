/*
 * A small hall with two lifts whose time varies with load; one of them may stand still. Prints for each pair of stations the time that
 * a tote takes at best and at worst, - for no way; then the number that exchanged tables are refused with. It ends with status 1 where
 * the first call is refused, or the second changes a result.
 */
#include "interval.h"

#include <stdio.h>
#include <string.h>

enum { STATIONS = 5, WORDS = STATIONS * STATIONS, NO_BELT = 65535 };

/* Seconds; row is from, column is to. The diagonal does not count. Lifts: 0 to 2 and 3 to 0. */
static const uint16_t light[WORDS] = {
    0,       12,      8,       NO_BELT, 60, /* intake */
    NO_BELT, 0,       7,       NO_BELT, NO_BELT,
    NO_BELT, NO_BELT, 0,       9,       NO_BELT,
    5,       NO_BELT, NO_BELT, 0,       20,
    NO_BELT, NO_BELT, NO_BELT, NO_BELT, 0, /* outlet: no belt leads back */
};

static const uint16_t loaded[WORDS] = {
    0,       12,      30,      NO_BELT, 60,
    NO_BELT, 0,       7,       NO_BELT, NO_BELT,
    NO_BELT, NO_BELT, 0,       9,       NO_BELT,
    NO_BELT, NO_BELT, NO_BELT, 0,       20, /* the lift down stands still */
    NO_BELT, NO_BELT, NO_BELT, NO_BELT, 0,
};

/* At best, and at worst. */
static uint16_t times[2][WORDS], before[2][WORDS];

static uint32_t plan(const uint16_t *best, const uint16_t *worst)
{
    return interval_close_range(PATHS_DISTANCE, STATIONS, best, WORDS, worst, WORDS, times[0], WORDS, times[1], WORDS);
}

static void show(uint16_t time)
{
    if (time == NO_BELT)
        printf(" -");
    else
        printf(" %u", (unsigned)time);
}

int main(void)
{
    uint32_t outcome = plan(light, loaded);
    if (outcome != PATHS_OK) {
        fprintf(stderr, "refused: %u\n", (unsigned)outcome);
        return 1;
    }
    for (size_t from = 0; from < STATIONS; from++)
        for (size_t to = 0; to < STATIONS; to++) {
            if (from == to)
                continue;
            printf("%zu to %zu:", from, to);
            show(times[0][from * STATIONS + to]);
            printf(" to");
            show(times[1][from * STATIONS + to]);
            printf("\n");
        }
    memcpy(before, times, sizeof times);
    printf("refused: %u\n", (unsigned)plan(loaded, light));
    return memcmp(before, times, sizeof times) != 0;
}
