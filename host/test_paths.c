/*
 * Calls the elimination through its C header: the bench cards B1 to B7, the borders of each argument, each refusal
 * and the order of the tests. Every call is made twice, on buffers between guard bytes at an odd address, and on
 * buffers allocated to their exact size, where valgrind sees a byte read or written outside them.
 */
#include "paths.h"

#include <stdio.h>
#include <stdlib.h>
#include <string.h>

_Static_assert(sizeof(size_t) == 8, "the sizes below whose square overflows are those of 64 bits");

enum {
    NONE = 65535,
    FAR = 65534, /* or more, in distance */
    GUARD = 15, GUARD_BYTE = 0xC3,
    MAX_WORDS = (PATHS_MAX_SIZE + 1) * (PATHS_MAX_SIZE + 1),
    MAX_BYTES = 2 * MAX_WORDS
};

static unsigned long passed, failed;

struct buffer {
    uint8_t *allocated, *bytes;
    size_t len, guard;
};

/* A slice is never null, so a buffer of no bytes is still allocated. */
static struct buffer buffer_new(size_t len, size_t guard)
{
    size_t whole = len + 2 * guard;
    struct buffer b = {malloc(whole ? whole : 1), NULL, len, guard};
    if (b.allocated == NULL) {
        perror("malloc");
        exit(2);
    }
    memset(b.allocated, GUARD_BYTE, whole);
    b.bytes = b.allocated + guard;
    return b;
}

static int guards_intact(const struct buffer *b)
{
    for (size_t at = 0; at < b->guard; at++)
        if (b->allocated[at] != GUARD_BYTE || b->bytes[b->len + at] != GUARD_BYTE)
            return 0;
    return 1;
}

/* What the result holds before each call; no two neighbours are alike, so that a moved byte shows. */
static uint8_t stale(size_t at)
{
    return (uint8_t)(37 * at + 11);
}

static void encode(uint8_t *bytes, const uint16_t *words, size_t count)
{
    for (size_t at = 0; at < count; at++) {
        bytes[2 * at] = (uint8_t)(words[at] & 0xFF);
        bytes[2 * at + 1] = (uint8_t)(words[at] >> 8);
    }
}

struct call {
    int line;
    uint32_t algebra;
    size_t size;
    const uint8_t *weights;
    size_t weights_len, result_len;
};

static void check(const struct call *c, int holds, const char *what, size_t got, size_t wanted)
{
    if (holds) {
        passed++;
        return;
    }
    failed++;
    printf("test_paths.c:%d: algebra %lu, size %zu, lengths %zu and %zu: %s %zu, wanted %zu\n", c->line,
           (unsigned long)c->algebra, c->size, c->weights_len, c->result_len, what, got, wanted);
}

/* closure is null where the call is to be refused: then the result has to be stale still. */
static void expect_with_guard(const struct call *c, uint32_t outcome, const uint8_t *closure, size_t guard)
{
    struct buffer weights = buffer_new(c->weights_len, guard);
    struct buffer result = buffer_new(c->result_len, guard);
    memcpy(weights.bytes, c->weights, weights.len);
    for (size_t at = 0; at < result.len; at++)
        result.bytes[at] = stale(at);

    uint32_t got = paths_eliminate(c->algebra, c->size, weights.bytes, weights.len, result.bytes, result.len);

    size_t right = 0;
    while (right < result.len && result.bytes[right] == (closure ? closure[right] : stale(right)))
        right++;
    check(c, got == outcome, "outcome", got, outcome);
    check(c, right == result.len, "bytes of the result up to the first wrong one", right, result.len);
    check(c, memcmp(weights.bytes, c->weights, weights.len) == 0, "weights as they were:", 0, 1);
    check(c, guards_intact(&weights) && guards_intact(&result), "guards as they were:", 0, 1);
    free(weights.allocated);
    free(result.allocated);
}

static void expect(const struct call *c, uint32_t outcome, const uint8_t *closure)
{
    expect_with_guard(c, outcome, closure, GUARD);
    expect_with_guard(c, outcome, closure, 0);
}

static void accept(int line, uint32_t algebra, size_t size, const uint16_t *weights, const uint16_t *closure)
{
    static uint8_t weight_bytes[MAX_BYTES], closure_bytes[MAX_BYTES];
    size_t words = size * size;
    encode(weight_bytes, weights, words);
    encode(closure_bytes, closure, words);
    struct call c = {line, algebra, size, weight_bytes, 2 * words, 2 * words};
    expect(&c, PATHS_OK, closure_bytes);
}

/* The weights of a call that is to be refused for another cause are zeros: words of every algebra. */
static void refuse(int line, uint32_t outcome, uint32_t algebra, size_t size, size_t weights_len, size_t result_len)
{
    static const uint8_t zeros[MAX_BYTES + 2];
    struct call c = {line, algebra, size, zeros, weights_len, result_len};
    expect(&c, outcome, NULL);
}

#define ACCEPT(...) accept(__LINE__, __VA_ARGS__)
#define REFUSE(...) refuse(__LINE__, __VA_ARGS__)
#define COUNT(array) (sizeof(array) / sizeof((array)[0]))

static void bench_cards(void)
{
    const uint16_t seven[] = {7}, zero[] = {0}, one[] = {1};
    ACCEPT(PATHS_DISTANCE, 1, seven, zero); /* B1 */
    ACCEPT(PATHS_REACH, 1, zero, one);      /* B2 */

    /* The words on the diagonal are arbitrary. */
    const uint16_t links[] = {9, 4, 9, NONE, NONE, 3, 1, NONE, 256};
    const uint16_t distance[] = {0, 4, 7, 4, 0, 3, 1, 5, 0};
    const uint16_t steepest[] = {0, 4, 4, 3, 0, 3, 1, 4, 0};
    const uint16_t reach_links[] = {0, 1, 1, 0, 1, 1, 1, 0, 0};
    const uint16_t ones[] = {1, 1, 1, 1, 1, 1, 1, 1, 1};
    ACCEPT(PATHS_DISTANCE, 3, links, distance); /* B3 */
    ACCEPT(PATHS_STEEPEST, 3, links, steepest); /* B4 */
    ACCEPT(PATHS_REACH, 3, reach_links, ones);  /* B5 */
}

/* Two links in a row: in distance the sum is held at 65534, and none comes only from none. B6 and B7 are the first two. */
static void joined_links(void)
{
    const struct {
        uint16_t first, second, distance, steepest;
    } cards[] = {
        {40000, 25534, FAR, 40000}, {40000, 25535, FAR, 40000}, {40000, 25536, FAR, 40000}, {40000, 25533, 65533, 40000},
        {32768, 32768, FAR, 32768}, {FAR, 0, FAR, FAR},         {FAR, 1, FAR, FAR},         {1, FAR, FAR, FAR},
        {FAR, FAR, FAR, FAR},       {FAR, NONE, NONE, NONE},    {NONE, FAR, NONE, NONE},    {NONE, NONE, NONE, NONE},
        {NONE, 1, NONE, NONE},      {0, NONE, NONE, NONE},      {255, 1, 256, 255},         {0, 0, 0, 0},
        {256, 255, 511, 256},
    };
    for (size_t at = 0; at < COUNT(cards); at++) {
        uint16_t x = cards[at].first, y = cards[at].second;
        const uint16_t links[] = {NONE, x, NONE, NONE, 5, y, NONE, NONE, 0};
        const uint16_t distance[] = {0, x, cards[at].distance, NONE, 0, y, NONE, NONE, 0};
        const uint16_t steepest[] = {0, x, cards[at].steepest, NONE, 0, y, NONE, NONE, 0};
        ACCEPT(PATHS_DISTANCE, 3, links, distance);
        ACCEPT(PATHS_STEEPEST, 3, links, steepest);
    }
}

static uint16_t join(uint32_t algebra, uint16_t x, uint16_t y)
{
    if (algebra == PATHS_REACH)
        return 1;
    if (algebra == PATHS_STEEPEST)
        return x > y ? x : y;
    return (uint32_t)x + y > FAR ? FAR : (uint16_t)(x + y);
}

/* Each point has one link, to the next; the last has one to the first where the ring is closed. So a pair has one way
   without a repeated point at most, and every point is needed as a middle one. */
static void ring(uint32_t algebra, size_t size, int closed)
{
    static uint16_t links[MAX_WORDS], closure[MAX_WORDS];
    for (size_t at = 0; at < size * size; at++)
        links[at] = closure[at] = algebra == PATHS_REACH ? 0 : NONE;
    for (size_t i = 0; i < size; i++) {
        size_t next = (i + 1) % size;
        if (next != 0 || closed)
            links[i * size + next] = algebra == PATHS_REACH ? 1 : (uint16_t)(500 + 13 * (29 * i % size));
    }
    for (size_t i = 0; i < size; i++) {
        uint16_t word = algebra == PATHS_REACH ? 1 : 0;
        closure[i * size + i] = word;
        for (size_t from = i, steps = 1; steps < size && (closed || from + 1 < size); steps++) {
            size_t to = (from + 1) % size;
            word = join(algebra, word, links[from * size + to]);
            closure[i * size + to] = word;
            from = to;
        }
    }
    ACCEPT(algebra, size, links, closure);
}

static void rings(void)
{
    const size_t sizes[] = {1, 2, 3, 7, 8, 9, 33, PATHS_MAX_SIZE - 1, PATHS_MAX_SIZE};
    for (size_t at = 0; at < COUNT(sizes); at++)
        for (uint32_t algebra = PATHS_REACH; algebra <= PATHS_STEEPEST; algebra++) {
            ring(algebra, sizes[at], 0);
            ring(algebra, sizes[at], 1);
        }
}

static void bad_algebras(void)
{
    /* Some are one of the three numbers where only the low bits are read. */
    const uint32_t algebras[] = {3, 4, 255, 256, 257, 65536, 65538, UINT32_C(1) << 31, UINT32_MAX};
    for (size_t at = 0; at < COUNT(algebras); at++)
        REFUSE(PATHS_BAD_ALGEBRA, algebras[at], 2, 8, 8);
}

/* Both lengths are what the arithmetic of 64 bits makes of the size, where that is short enough to be lent. */
static void bad_sizes(void)
{
    const size_t two32 = (size_t)1 << 32, two63 = (size_t)1 << 63;
    const size_t sizes[] = {0,         PATHS_MAX_SIZE + 1, 255,   256,       258,      65538,        two32 / 2, two32,
                            two32 + 1, two32 + 2,          two63, two63 + 1, SIZE_MAX, SIZE_MAX - 1, SIZE_MAX / 2};
    for (size_t at = 0; at < COUNT(sizes); at++)
        for (uint32_t algebra = PATHS_REACH; algebra <= PATHS_STEEPEST; algebra++) {
            size_t wrapped = 2 * sizes[at] * sizes[at];
            REFUSE(PATHS_BAD_SIZE, algebra, sizes[at], 8, 8);
            if (wrapped <= MAX_BYTES)
                REFUSE(PATHS_BAD_SIZE, algebra, sizes[at], wrapped, wrapped);
        }
}

static void bad_lengths(void)
{
    const size_t sizes[] = {1, 2, 3, 8, PATHS_MAX_SIZE};
    for (size_t at = 0; at < COUNT(sizes); at++) {
        size_t n = sizes[at], right = 2 * n * n;
        const size_t wrong[] = {0, n * n, right - 2, right - 1, right + 1, right + 2, right + 2 * n};
        for (size_t w = 0; w < COUNT(wrong); w++)
            for (uint32_t algebra = PATHS_REACH; algebra <= PATHS_STEEPEST; algebra++) {
                REFUSE(PATHS_BAD_WEIGHTS_LEN, algebra, n, wrong[w], right);
                REFUSE(PATHS_BAD_RESULT_LEN, algebra, n, right, wrong[w]);
                REFUSE(PATHS_BAD_WEIGHTS_LEN, algebra, n, wrong[w], wrong[w]);
            }
    }
}

/* One word above 1, at each place in turn. Some have a byte that is 0 or 1, and look right where the other is lost. */
static void bad_words(size_t size)
{
    static uint8_t weights[MAX_BYTES];
    const uint16_t words[] = {2, 256, 257, 0x8000, 0xFF01, NONE};
    size_t last = size * size - 1, stride = size > 8 ? last : 1;
    for (size_t place = 0; place <= last; place += stride)
        for (size_t w = 0; w < COUNT(words); w++) {
            memset(weights, 0, sizeof weights);
            encode(weights + 2 * place, &words[w], 1);
            struct call c = {__LINE__, PATHS_REACH, size, weights, 2 * size * size, 2 * size * size};
            expect(&c, PATHS_BAD_WORD, NULL);
        }
}

/* Every set of faults at once; the lowest number of the set has to be returned. */
static void order_of_tests(size_t bad_size, uint32_t bad_algebra)
{
    static uint8_t weights[MAX_BYTES + 2];
    for (unsigned faults = 1; faults < 32; faults++) {
        size_t size = faults & 2 ? bad_size : 3, right = 2 * size * size;
        weights[0] = faults & 16 ? 2 : 1;
        struct call c = {__LINE__, faults & 1 ? bad_algebra : PATHS_REACH, size, weights,
                         right + (faults & 4 ? 2 : 0), right + (faults & 8 ? 1 : 0)};
        uint32_t first = 1;
        while (!(faults >> (first - 1) & 1))
            first++;
        expect(&c, first, NULL);
    }
}

int main(void)
{
    bench_cards();
    joined_links();
    rings();
    bad_algebras();
    bad_sizes();
    bad_lengths();
    bad_words(3);
    bad_words(PATHS_MAX_SIZE);
    order_of_tests(PATHS_MAX_SIZE + 1, 3);
    order_of_tests(0, UINT32_MAX);
    printf("host: %lu checks %s\n", failed ? failed : passed, failed ? "failed" : "passed");
    return failed != 0;
}
