/*
 * What the tests hand over and lend. Inputs are copied into blocks of exactly their size, so that valgrind sees a read past an
 * end; outputs lie between guard bytes and are filled first, so that a byte written where none may be is seen.
 */
#ifndef LENT_H
#define LENT_H

#include "check.h"
#include "durpaxeta.h"

#include <inttypes.h>
#include <stdio.h>
#include <stdlib.h>
#include <string.h>

static void check_answer(uint32_t got, uint32_t wanted, const char *what, int line)
{
    checks++;
    if (got != wanted) {
        failures++;
        printf("FAILED at line %d: %s answers %" PRIu32 ", not %" PRIu32 "\n", line, what, got, wanted);
    }
}

#define ANSWERS(call, wanted) check_answer((call), (wanted), #call, __LINE__)

/* Blocks handed out by in() and guarded(), freed together. */
static void *blocks[256];
static size_t block_count;

static void *block(size_t size)
{
    void *p = malloc(size);
    if (p == NULL || block_count == sizeof blocks / sizeof blocks[0]) {
        printf("FAILED: no memory for the test\n");
        exit(2);
    }
    blocks[block_count++] = p;
    return p;
}

/* Frees all but the first `left`. */
static void release_to(size_t left)
{
    while (block_count > left)
        free(blocks[--block_count]);
}

static void release(void) { release_to(0); }

/* A copy of exactly `size` bytes; NULL for none. */
static void *in(const void *from, size_t size)
{
    void *p;
    if (size == 0)
        return NULL;
    p = block(size);
    memcpy(p, from, size);
    return p;
}

/* Slices out of lists in the source. */
#define BYTES(...) (const uint8_t *)in((const uint8_t[]){__VA_ARGS__}, sizeof((const uint8_t[]){__VA_ARGS__})), \
                   sizeof((const uint8_t[]){__VA_ARGS__})
#define NUMBERS(...) (const uint64_t *)in((const uint64_t[]){__VA_ARGS__}, sizeof((const uint64_t[]){__VA_ARGS__})), \
                     sizeof((const uint64_t[]){__VA_ARGS__}) / sizeof(uint64_t)
#define TEXT(text) (const uint8_t *)in((text), sizeof(text) - 1), sizeof(text) - 1
#define NONE NULL, 0

enum { GUARD = 64, FILL = 0xA5 };
#define FILL64 UINT64_C(0xA5A5A5A5A5A5A5A5)

static uint8_t *guarded(size_t size)
{
    uint8_t *p = block(size + 2 * GUARD);
    memset(p, FILL, size + 2 * GUARD);
    return p + GUARD;
}

static int filled(const uint8_t *p, size_t size)
{
    size_t i;
    for (i = 0; i < size; i++)
        if (p[i] != FILL)
            return 0;
    return 1;
}

/* From `written` on an output and both its guards are as they were. */
static int kept(const uint8_t *p, size_t written, size_t size)
{
    return written <= size && filled(p - GUARD, GUARD) && filled(p + written, size - written + GUARD);
}

static void check_is(const void *got, const void *wanted, size_t size, const char *what, int line)
{
    check(size == 0 || memcmp(got, wanted, size) == 0, what, line);
}

#endif
