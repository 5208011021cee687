/*
 * Measures the stack that the elimination, that of a range, and the reader of road files need, on a stack painted before the call,
 * and holds it to the figures of paths.h, interval.h and road.h. Which arrays share a frame is the compiler's choice, and no proof
 * speaks of it.
 */
#define _XOPEN_SOURCE 600
#include "interval.h"
#include "paths.h"
#include "road.h"

#include <stdio.h>
#include <stdlib.h>
#include <string.h>
#include <ucontext.h>

enum {
    STACK_BYTES = 1 << 18,
    PAINT = 0xA5,
    MAX_WORDS = PATHS_MAX_SIZE * PATHS_MAX_SIZE,
    MAX_BYTES = 2 * MAX_WORDS
};

/* The largest size that fits each figure of paths.h, and the figure in KB. */
static const struct {
    size_t size, kilobytes;
} rooms[] = {{8, 1}, {16, 2}, {64, 10}, {PATHS_MAX_SIZE, 34}};

static ucontext_t caller, painted;
static uint8_t weights[MAX_BYTES], result[MAX_BYTES], stack[STACK_BYTES];
static uint32_t algebra, outcome;
static size_t size;
static int failed;

static void eliminate(void)
{
    size_t bytes = 2 * size * size;
    outcome = paths_eliminate(algebra, size, weights, bytes, result, bytes);
}

static void close_range(void)
{
    static uint16_t best[MAX_WORDS], worst[MAX_WORDS], best_result[MAX_WORDS], worst_result[MAX_WORDS];
    size_t words = size * size;
    outcome = interval_close_range(algebra, size, best, words, worst, words, best_result, words, worst_result, words);
}

static void read_file(void)
{
    static const char file[] = "c\np sp 2 2\na 1 2 3\na 2 1 4\n";
    static uint16_t table[ROAD_TABLE_WORDS];
    outcome = road_read((const uint8_t *)file, sizeof file - 1, table, ROAD_TABLE_WORDS, &size);
}

static void nothing(void)
{
}

/* The bytes of the stack that are no longer as painted, from the lowest on. */
static size_t touched(void (*function)(void))
{
    size_t at = 0;
    memset(stack, PAINT, STACK_BYTES);
    if (getcontext(&painted) != 0) {
        perror("getcontext");
        exit(2);
    }
    painted.uc_stack.ss_sp = stack;
    painted.uc_stack.ss_size = STACK_BYTES;
    painted.uc_link = &caller;
    makecontext(&painted, function, 0);
    if (swapcontext(&caller, &painted) != 0) {
        perror("swapcontext");
        exit(2);
    }
    while (at < STACK_BYTES && stack[at] == PAINT)
        at++;
    return STACK_BYTES - at;
}

/* The stack that a call uses, held to what its header says. The first call binds the C library's functions. */
static size_t hold(void (*call)(void), const char *header, size_t kilobytes)
{
    size_t own = touched(nothing);
    touched(call);
    size_t used = touched(call) - own;
    if (outcome != PATHS_OK || used > 1024 * kilobytes) {
        printf("stack: %s says %zu KB\n", header, kilobytes);
        failed = 1;
    }
    return used;
}

int main(void)
{
    for (size_t room = 0; room < sizeof rooms / sizeof rooms[0]; room++)
        for (algebra = PATHS_REACH; algebra <= PATHS_STEEPEST; algebra++) {
            size = rooms[room].size;
            size_t used = hold(eliminate, "paths.h", rooms[room].kilobytes);
            size_t of_range = hold(close_range, "interval.h", 1);
            printf("stack: %zu points, algebra %u: %zu bytes, a range: %zu bytes\n", size, (unsigned)algebra, used, of_range);
        }
    printf("stack: a road file: %zu bytes\n", hold(read_file, "road.h", 1));
    return failed;
}
