/* The way between two points of a closed table, as the proved archive libraudvisk.a exports it. */
#ifndef TRACEBACK_H
#define TRACEBACK_H

#include "paths.h"

#ifdef __cplusplus
extern "C" {
#endif

/* What a call returns beside PATHS_OK and the numbers of the elimination's checks, where PATHS_BAD_WEIGHTS_LEN is for the
   links and PATHS_BAD_RESULT_LEN for the closed table. The tests run in the order of the numbers. */
enum traceback_outcome {
    TRACEBACK_UNFIT = 19, /* list_len is not size, a point is not below size, or closed is not the links' elimination */
    TRACEBACK_NO_WAY = 20 /* the closed entry is the word for no way */
};

/*
 * Writes to list a way from one point to another with no point twice, whose word over the links is the closed entry, and its
 * number of points to length. Where several ways have that word, any of them is given. The words of list after the way stay.
 *
 * links and closed are tables of size * size words, row by row, and list has size words; all lengths are in words of 16
 * bits. closed is what paths_eliminate makes of links: every word of it is compared. The diagonal of links does not count.
 *
 * No pointer may be null, also where its length is 0. list and length must not overlap each other or the tables. Each
 * buffer must hold as many words as its length says, also in a call that is refused.
 *
 * The call allocates nothing. Measured, it needs 36 KB of stack; where the loader binds memcpy and memset late, the first
 * call needs some 4 KB more.
 *
 * Returns PATHS_OK, or the number of the refusal; a refused call changes neither list nor length.
 */
uint32_t traceback_way(uint32_t algebra, size_t size, const uint16_t *links, size_t links_len, const uint16_t *closed,
                       size_t closed_len, size_t from, size_t to, uint16_t *list, size_t list_len, size_t *length);

#ifdef __cplusplus
}
#endif

#endif
