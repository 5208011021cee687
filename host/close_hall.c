/*
 * Closes a small hall and prints it: how far a tote travels from each station to each other one, or - where no belt
 * leads there.
 */
#include "paths.h"

#include <stdio.h>

enum { STATIONS = 5, WORDS = STATIONS * STATIONS, NO_BELT = 65535 };

/* Belt lengths in metres; row is from, column is to. The diagonal does not count. */
static const uint16_t belts[WORDS] = {
    0,       12,      NO_BELT, NO_BELT, 40, /* intake */
    NO_BELT, 0,       7,       NO_BELT, NO_BELT,
    NO_BELT, NO_BELT, 0,       9,       NO_BELT,
    5,       NO_BELT, NO_BELT, 0,       NO_BELT,
    NO_BELT, NO_BELT, NO_BELT, NO_BELT, 0, /* outlet: no belt leads back */
};

int main(void)
{
    uint8_t weights[2 * WORDS], result[2 * WORDS];
    for (size_t at = 0; at < WORDS; at++) {
        weights[2 * at] = (uint8_t)(belts[at] & 0xFF);
        weights[2 * at + 1] = (uint8_t)(belts[at] >> 8);
    }

    uint32_t outcome = paths_eliminate(PATHS_DISTANCE, STATIONS, weights, sizeof weights, result, sizeof result);
    if (outcome != PATHS_OK) {
        fprintf(stderr, "refused: %u\n", (unsigned)outcome);
        return 1;
    }

    for (size_t from = 0; from < STATIONS; from++) {
        for (size_t to = 0; to < STATIONS; to++) {
            const uint8_t *word = result + 2 * (from * STATIONS + to);
            unsigned metres = word[0] + 256u * word[1];
            if (metres == NO_BELT)
                printf("%5s", "-");
            else
                printf("%5u", metres);
        }
        putchar('\n');
    }
    return 0;
}
