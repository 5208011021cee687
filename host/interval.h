/* Two tables closed at once, of the best and the worst word for each link, as the proved archive libraudvisk.a exports it. */
#ifndef INTERVAL_H
#define INTERVAL_H

#include "paths.h"

#ifdef __cplusplus
extern "C" {
#endif

/* What a call returns beside PATHS_OK and the numbers of the elimination's checks, which are made for best and best_result,
   then for worst and worst_result: PATHS_BAD_WEIGHTS_LEN is for a table, PATHS_BAD_RESULT_LEN for its result. */
enum interval_outcome {
    INTERVAL_INVERTED = 24 /* a link's worst word betters its best one; tested last */
};

/*
 * Closes best into best_result and worst into worst_result. In every table of which each link lies between its best and its
 * worst word, each closed entry lies between the two results', and both results are reached: by the two tables themselves.
 * Which of two words is the better goes by the algebra: in reach it is the larger.
 *
 * All four are tables of size * size words, row by row; all lengths are in words of 16 bits. The diagonals of best and worst
 * do not count as links: in reach they must be words all the same.
 *
 * No pointer may be null, also where its length is 0. The results must not overlap each other or the tables. Each buffer must
 * hold as many words as its length says, also in a call that is refused.
 *
 * The call allocates nothing. Measured, it needs less than 1 KB of stack at every size; where the loader binds memcpy late, the
 * first call needs some 4 KB more.
 *
 * Returns PATHS_OK, or the number of the refusal; a refused call changes neither result.
 */
uint32_t interval_close_range(uint32_t algebra, size_t size, const uint16_t *best, size_t best_len, const uint16_t *worst,
                              size_t worst_len, uint16_t *best_result, size_t best_result_len, uint16_t *worst_result,
                              size_t worst_result_len);

#ifdef __cplusplus
}
#endif

#endif
