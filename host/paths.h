/* The elimination of a table of path words, as the proved archive libraudvisk.a exports it. */
#ifndef PATHS_H
#define PATHS_H

#include <stddef.h>
#include <stdint.h>

#ifdef __cplusplus
extern "C" {
#endif

/* The largest number of points in a table. */
#define PATHS_MAX_SIZE 128

/* What a word says, and so how two words are joined and which of two is the better. */
enum paths_algebra {
    PATHS_REACH = 0,    /* 1 where there is a way, else 0; no other word is accepted */
    PATHS_DISTANCE = 1, /* length of the shortest way, held at 65534: 65534 or more; 65535 where there is none */
    PATHS_STEEPEST = 2  /* smallest steepest link of a way; 65535 where there is none */
};

/* What a call returns. The tests run in this order and the first that applies gives the number. */
enum paths_outcome {
    PATHS_OK = 0,
    PATHS_BAD_ALGEBRA = 1,     /* algebra is none of the three */
    PATHS_BAD_SIZE = 2,        /* size is not 1 to PATHS_MAX_SIZE */
    PATHS_BAD_WEIGHTS_LEN = 3, /* weights_len is not 2 * size * size */
    PATHS_BAD_RESULT_LEN = 4,  /* result_len is not 2 * size * size */
    PATHS_BAD_WORD = 5         /* a word above 1 in reach, on the diagonal too */
};

/*
 * Writes to result, for each pair of points, the best word of all ways between them.
 *
 * weights and result are tables of size * size words, row by row; row is from, column is to. A word has 16 bits in
 * two bytes, low byte first, so both lengths are 2 * size * size bytes, exactly. Any alignment will do. The words on
 * the diagonal of weights do not count as links.
 *
 * Neither pointer may be null, also where its length is 0, and the two buffers must not overlap. Both must hold as
 * many bytes as their lengths say, also in a call that is refused.
 *
 * The call allocates nothing. Measured, it needs 1 KB of stack up to 8 points, 2 KB up to 16, 10 KB up to 64 and 34 KB up to 128; where the
 * loader binds memcpy and memset late, the first call needs some 4 KB more.
 *
 * Returns PATHS_OK, or the number of the refusal; a refused call changes no byte of result.
 */
uint32_t paths_eliminate(uint32_t algebra, size_t size, const uint8_t *weights, size_t weights_len, uint8_t *result,
                         size_t result_len);

#ifdef __cplusplus
}
#endif

#endif
