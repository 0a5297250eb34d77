/*
 * A fuzzer's harness over the archive: four bytes choose a kind and a small shape, the rest is a stored string. What dpx_decode
 * accepts must come out of dpx_encode as the very same bytes (../again). See ../README.md.
 */
#include "again.h"

#include <inttypes.h>
#include <stdio.h>
#include <stdlib.h>
#include <string.h>

int LLVMFuzzerTestOneInput(const uint8_t *data, size_t size);
size_t LLVMFuzzerCustomMutator(uint8_t *data, size_t size, size_t max_size, unsigned seed);
size_t LLVMFuzzerMutate(uint8_t *data, size_t size, size_t max_size);

/* ---- what the first bytes choose */

#define HEADER 4

struct shape {
    size_t sides;
    uint64_t side[5];
};
/* Around whole bytes of packed masks and around the steps of the loops; then more sides; the last seven are refused. */
static const struct shape shapes[] = {
    {1, {1}}, {1, {2}}, {1, {3}}, {1, {4}}, {1, {5}}, {1, {6}}, {1, {7}}, {1, {8}}, {1, {9}}, {1, {12}}, {1, {15}}, {1, {16}},
    {1, {17}}, {1, {24}}, {1, {31}}, {1, {32}}, {1, {33}}, {1, {63}}, {1, {64}}, {1, {65}}, {1, {66}}, {1, {100}}, {1, {240}}, {1, {260}},
    {1, {300}}, {2, {1, 3}}, {2, {2, 2}}, {2, {3, 3}}, {3, {2, 1, 2}}, {3, {2, 2, 2}}, {4, {1, 1, 1, 1}}, {4, {2, 3, 2, 2}},
    {0, {0}}, {1, {0}}, {2, {2, 0}}, {1, {65537}}, {2, {256, 257}}, {2, {UINT64_C(1) << 32, UINT64_C(1) << 32}}, {5, {1, 1, 1, 1, 1}},
};

struct table {
    dpx_kind kind;
    const struct shape *shape;
};

/* Some headers choose a kind that is refused. */
static struct table chosen(const uint8_t *header)
{
    struct table t;
    const unsigned other = header[1] >> 3;
    t.kind.depth = header[0] == 0xFF ? 5 : header[0] % 5;
    t.kind.form = other == 31 ? 2 : header[1] & 1;
    t.kind.order = other == 30 ? 2 : header[1] >> 1 & 1;
    t.kind.mask = other == 29 ? 2 : header[1] >> 2 & 1;
    if (t.kind.form == DPX_RAGGED)
        t.kind.size = header[2] % 32 == 31 ? 5 : header[2] % 2 == 0 ? 4 : 8;
    else
        t.kind.size = header[2] % 66;
    t.shape = &shapes[header[3] % (sizeof shapes / sizeof shapes[0])];
    return t;
}

/* ---- how often each answer was met, by kinds of each depth, form and mask form */

#define ANSWERS 16
static unsigned long met[6][2][2][ANSWERS], deep[6][2][2];

static void report(void)
{
    static const unsigned shown[] = {1, 2, 5, 7, 8, 10, 13, 14};
    unsigned long strings = 0, same = 0;
    unsigned depth, form, mask;
    size_t i;
    printf("strings written again the same, those of them with a cell that is set at all levels, and refused ones by number\n%-23s", "");
    printf("%10s%10s", "same", "deep");
    for (i = 0; i < sizeof shown / sizeof shown[0]; i++)
        printf("%9u", shown[i]);
    for (depth = 0; depth < 6; depth++)
        for (form = 0; form < 2; form++)
            for (mask = 0; mask < 2; mask++) {
                const unsigned long *row = met[depth][form][mask];
                printf("\ndepth %u %-7s%-8s%10lu%10lu", depth, form == 0 ? "fixed" : "ragged", mask == 0 ? "bytes" : "packed", row[0],
                       deep[depth][form][mask]);
                for (i = 0; i < sizeof shown / sizeof shown[0]; i++)
                    printf("%9lu", row[shown[i]]);
                for (i = 0; i < ANSWERS; i++)
                    strings += row[i];
                same += row[0];
            }
    printf("\n%lu strings, %lu of them accepted, and each of these written again the same\n", strings, same);
}

/* The cells set in a stored mask. */
static size_t set_cells(dpx_kind kind, const uint8_t *mask, size_t cells)
{
    size_t i, set = 0;
    for (i = 0; i < cells; i++)
        set += kind.mask == DPX_MASK_PACKED ? mask[i / 8] >> i % 8 & 1 : mask[i] == 1;
    return set;
}

/* Whether a cell of an accepted string is set at all levels. */
static int is_deep(struct table t, const uint8_t *bytes)
{
    size_t cells = dpx_cell_count(t.shape->side, t.shape->sides);
    uint64_t level;
    for (level = 0; level < t.kind.depth && cells != 0; level++) {
        const uint8_t *mask = bytes + 16;
        bytes = mask + dpx_mask_room(t.kind, cells);
        cells = set_cells(t.kind, mask, cells);
    }
    return cells != 0;
}

/* ---- the test */

/* Ends the process with a message, and the string as a request of ../data: build/oracle/driver ask takes it. */
static void stop(const char *what, dpx_kind kind, const uint64_t *shape, size_t shape_len, const uint8_t *bytes, size_t bytes_len)
{
    size_t i;
    fprintf(stderr, "again: %s\n2 %" PRIu64 " %" PRIu64 " %" PRIu64 " %" PRIu64 " %" PRIu64 " %zu", what, kind.depth, kind.form,
            kind.size, kind.order, kind.mask, shape_len);
    for (i = 0; i < shape_len; i++)
        fprintf(stderr, " %" PRIu64, shape[i]);
    fprintf(stderr, " %zu%s", bytes_len, bytes_len == 0 ? "" : " ");
    for (i = 0; i < bytes_len; i++)
        fprintf(stderr, "%02x", bytes[i]);
    fprintf(stderr, "\n");
    abort();
}

/* A block of just these bytes: the sanitizer sees a byte read before or behind it. */
static void *in(const void *from, size_t size)
{
    void *at = malloc(size);
    if (at == NULL)
        abort();
    if (size != 0)
        memcpy(at, from, size);
    return at;
}

int LLVMFuzzerTestOneInput(const uint8_t *data, size_t size)
{
    static int begun;
    struct table t;
    uint8_t *bytes;
    uint64_t *shape;
    uint32_t answer;
    const char *what;
    if (!begun) {
        begun = 1;
        if (getenv("FUZZ_REPORT") != NULL)
            atexit(report);
    }
    if (size < HEADER) {
        data = (const uint8_t *)"\0\1\1\0";
        size = HEADER;
    }
    t = chosen(data);
    size -= HEADER;
    bytes = in(data + HEADER, size);
    shape = in(t.shape->side, 8 * t.shape->sides);
    answer = again(dpx_decode, dpx_encode, t.kind, shape, t.shape->sides, bytes, size, &what);
    if (answer == AGAIN_DIFFERENT)
        stop(what, t.kind, shape, t.shape->sides, bytes, size);
    if (size != 0 && memcmp(bytes, data + HEADER, size) != 0)
        stop("the string has changed", t.kind, shape, t.shape->sides, bytes, size);
    if (answer < ANSWERS)
        met[t.kind.depth][t.kind.form % 2][t.kind.mask % 2][answer]++;
    if (answer == AGAIN_SAME && is_deep(t, bytes))
        deep[t.kind.depth][t.kind.form % 2][t.kind.mask % 2]++;
    free(bytes);
    free(shape);
    return 0;
}

/* ---- the mutator: a load, or the usual changes, after which most lengths are made to agree again */

static uint32_t draw(uint32_t *state)
{
    *state = UINT32_C(1664525) * *state + UINT32_C(1013904223);
    return *state >> 16;
}

/* All but one time in sixteen: so strings come up in which one thing is wrong. */
static int mostly(uint32_t *state)
{
    return draw(state) % 16 != 0;
}

static uint64_t get(const uint8_t *at, size_t width)
{
    uint64_t n = 0;
    while (width-- > 0)
        n = n << 8 | at[width];
    return n;
}

static void put(uint8_t *at, size_t width, uint64_t n)
{
    for (; width-- > 0; n >>= 8)
        *at++ = (uint8_t)n;
}

/* Mask bytes 00 and 01, or unused bits 0. Answers how many cells are set. */
static size_t mend_mask(dpx_kind kind, uint8_t *mask, size_t cells, uint32_t *state)
{
    size_t i;
    if (mostly(state)) {
        if (kind.mask == DPX_MASK_BYTES)
            for (i = 0; i < cells; i++)
                mask[i] &= 1;
        else if (cells % 8 != 0)
            mask[cells / 8] &= (uint8_t)((1 << cells % 8) - 1);
    }
    return set_cells(kind, mask, cells);
}

/* Offsets that begin at 0, never fall and end with the count of data bytes. */
static void mend_offsets(uint8_t *index, size_t width, size_t cells, uint64_t data, uint32_t *state)
{
    const int first = mostly(state), rising = mostly(state), whole = mostly(state);
    uint64_t last = 0, n;
    size_t i;
    for (i = 0; i <= cells; i++, index += width) {
        n = get(index, width);
        if (i == 0 && first)
            n = 0;
        else if (i == cells && whole)
            n = data;
        else if ((n < last || n > data) && rising)
            n = last + n % (data - last + 1);
        put(index, width, n);
        last = n <= data ? n : data;
    }
}

/* Makes the string's lengths agree with each other, from the outside in. Answers how long it is then. */
static size_t mend(struct table t, uint8_t *s, size_t size, size_t room, uint32_t *state)
{
    const dpx_kind kind = t.kind;
    size_t frames[DPX_MAX_DEPTH], masks[DPX_MAX_DEPTH], at = 0, levels = 0, i;
    size_t cells = dpx_cell_count(t.shape->side, t.shape->sides), need;
    if (kind.depth > DPX_MAX_DEPTH || kind.mask > DPX_MASK_PACKED)
        return size;
    for (; levels < kind.depth && cells != 0; levels++) {
        const size_t mask = dpx_mask_room(kind, cells);
        need = at + 16 + mask;
        if (need > room)
            break;
        for (; size < need; size++)
            s[size] = (uint8_t)(draw(state) & 1);
        frames[levels] = at;
        masks[levels] = mask;
        cells = mend_mask(kind, s + at + 16, cells, state);
        at = need;
    }
    if (levels == kind.depth || cells == 0) {
        if (cells == 0) {
            if (mostly(state))
                size = at;
        } else if (kind.form == DPX_RAGGED) {
            const size_t index = kind.size * (cells + 1);
            need = at + 8 + index;
            if (need <= room) {
                for (; size < need; size++)
                    s[size] = 0;
                put(s + (kind.order == DPX_START ? at : size - 8), 8, index);
                mend_offsets(s + (kind.order == DPX_START ? at + 8 : size - 8 - index), kind.size, cells, size - need, state);
            }
        } else {
            need = at + kind.size * cells;
            if (need <= room && mostly(state)) {
                for (; size < need; size++)
                    s[size] = (uint8_t)draw(state);
                size = need;
            }
        }
    }
    for (i = 0; i < levels; i++)
        if (mostly(state)) {
            put(s + frames[i], 8, masks[i]);
            put(s + frames[i] + 8, 8, size - frames[i] - 16 - masks[i]);
        }
    return size;
}

/* A load as it is stored; the string as it was where there is no room. */
static size_t load(struct table t, uint8_t *s, size_t size, size_t room, uint32_t start)
{
    const uint64_t cells = dpx_cell_count(t.shape->side, t.shape->sides);
    const dpx_room need = dpx_array_room(t.kind, cells, 8 * cells);
    uint8_t *masks = malloc(need.masks), *values = malloc(need.values);
    uint64_t *offsets = malloc(8 * need.offsets), lengths[3], length;
    if (dpx_generate(t.kind, t.shape->side, t.shape->sides, start, masks, need.masks, values, need.values, offsets, need.offsets, lengths)
            == DPX_OK
        && dpx_encode(t.kind, t.shape->side, t.shape->sides, masks, lengths[0], values, lengths[1], offsets, lengths[2], s, room, &length)
               == DPX_OK)
        size = length;
    free(masks);
    free(values);
    free(offsets);
    return size;
}

size_t LLVMFuzzerCustomMutator(uint8_t *data, size_t size, size_t max_size, unsigned seed)
{
    uint32_t state = seed;
    const uint32_t act = draw(&state) % 16;
    size = LLVMFuzzerMutate(data, size, max_size);
    if (max_size <= HEADER)
        return size;
    for (; size < HEADER; size++)
        data[size] = (uint8_t)draw(&state);
    if (act == 0 || size == HEADER)
        return HEADER + load(chosen(data), data + HEADER, size - HEADER, max_size - HEADER, state);
    if (act < 11)
        return HEADER + mend(chosen(data), data + HEADER, size - HEADER, max_size - HEADER, &state);
    return size;
}
