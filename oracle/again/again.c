/* See again.h. */
#include "again.h"

#include <stdio.h>
#include <stdlib.h>
#include <string.h>

/* Under the address sanitizer the guards are poisoned: to read one is seen too. */
#if defined(__has_feature)
#if __has_feature(address_sanitizer)
#define POISONED
#endif
#endif
#if defined(POISONED) || defined(__SANITIZE_ADDRESS__)
#include <sanitizer/asan_interface.h>
#define UNSEEN __attribute__((no_sanitize("address")))
#else
#define ASAN_POISON_MEMORY_REGION(at, size) ((void)(at), (void)(size))
#define UNSEEN
#endif

/* ---- outputs */

/* An output of `size` bytes between guards. A poisoned region begins anywhere but ends at a multiple of 8. */
#define GUARD 64
struct lent {
    uint8_t *at;
    size_t size;
    size_t behind;
};

/* No mask byte is like it. */
static uint8_t pattern(size_t i)
{
    return (uint8_t)(0x80 | (i * 29 ^ i >> 7));
}

static struct lent lend(size_t size)
{
    const size_t behind = GUARD + (8 - size % 8) % 8;
    struct lent out = {malloc(GUARD + size + behind), size, behind};
    size_t i;
    if (out.at == NULL) {
        fprintf(stderr, "again: no memory\n");
        abort();
    }
    for (i = 0; i < GUARD + size + behind; i++)
        out.at[i] = pattern(i);
    out.at += GUARD;
    ASAN_POISON_MEMORY_REGION(out.at - GUARD, GUARD);
    ASAN_POISON_MEMORY_REGION(out.at + size, behind);
    return out;
}

static void give_back(struct lent out)
{
    free(out.at - GUARD);
}

/* Whether all but the first `written` bytes is as it was lent. */
static UNSEEN int kept(struct lent out, size_t written)
{
    const uint8_t *all = out.at - GUARD;
    size_t i, changed = 0;
    for (i = 0; i < GUARD; i++)
        changed += all[i] != pattern(i);
    for (i = GUARD + written; i < GUARD + out.size + out.behind; i++)
        changed += all[i] != pattern(i);
    return changed == 0;
}

/* ---- an array as dpx_decode writes it */

struct array {
    struct lent masks, values, offsets, lengths;
};

static struct array lend_array(dpx_room room)
{
    struct array a;
    a.masks = lend(room.masks);
    a.values = lend(room.values);
    a.offsets = lend(8 * room.offsets);
    a.lengths = lend(8 * 3);
    return a;
}

static void give_array_back(struct array a)
{
    give_back(a.masks);
    give_back(a.values);
    give_back(a.offsets);
    give_back(a.lengths);
}

static uint64_t named(struct lent lengths, size_t i)
{
    return ((const uint64_t *)(const void *)lengths.at)[i];
}

static uint64_t *numbers(struct lent out)
{
    return (uint64_t *)(void *)out.at;
}

/* What is wrong with the named lengths, which are those of the room, or beyond them. Ragged values may be shorter. */
static const char *fault(struct array a, dpx_kind kind, dpx_room room)
{
    const uint64_t values = named(a.lengths, 1);
    if (named(a.lengths, 0) != room.masks)
        return "dpx_decode names another length of masks";
    if (values > room.values || (kind.form == DPX_FIXED && values != room.values))
        return "dpx_decode names another length of values";
    if (named(a.lengths, 2) != room.offsets)
        return "dpx_decode names another length of offsets";
    if (!kept(a.masks, room.masks) || !kept(a.values, values) || !kept(a.offsets, 8 * room.offsets) || !kept(a.lengths, 8 * 3))
        return "dpx_decode changes a byte beyond the named lengths";
    return NULL;
}

/* What is wrong with the array written again. */
static const char *written(again_encode *encode, dpx_kind kind, const uint64_t *shape, size_t shape_len, const uint8_t *bytes,
                           size_t bytes_len, struct array a, dpx_room room)
{
    struct lent out = lend(bytes_len), length = lend(8);
    const uint32_t answer = encode(kind, shape, shape_len, a.masks.at, room.masks, a.values.at, room.values, numbers(a.offsets),
                                   room.offsets, out.at, out.size, numbers(length));
    const char *what = NULL;
    if (answer == DPX_OUTPUT)
        what = "dpx_encode writes more bytes than were read";
    else if (answer != DPX_OK)
        what = "dpx_encode refuses what dpx_decode gave";
    else if (named(length, 0) != bytes_len)
        what = "dpx_encode writes fewer bytes than were read";
    else if (!kept(out, bytes_len) || !kept(length, 8))
        what = "dpx_encode changes a byte beyond its output";
    else if (!kept(a.masks, room.masks) || !kept(a.values, room.values) || !kept(a.offsets, 8 * room.offsets))
        what = "dpx_encode changes a byte beside its input";
    else if (bytes_len != 0 && memcmp(out.at, bytes, bytes_len) != 0)
        what = "dpx_encode writes other bytes than were read";
    give_back(out);
    give_back(length);
    return what;
}

uint32_t again(again_decode *decode, again_encode *encode, dpx_kind kind, const uint64_t *shape, size_t shape_len,
               const uint8_t *bytes, size_t bytes_len, const char **what)
{
#define DECODE(a)                                                                                                              \
    decode(kind, shape, shape_len, bytes, bytes_len, a.masks.at, a.masks.size, a.values.at, a.values.size, numbers(a.offsets), \
           a.offsets.size / 8, numbers(a.lengths))
    dpx_room room = dpx_array_room(kind, dpx_cell_count(shape, shape_len), bytes_len);
    struct array a = lend_array(room);
    const uint32_t answer = DECODE(a);
    *what = NULL;
    if (answer == DPX_OUTPUT)
        *what = "dpx_decode refuses outputs that are long enough";
    else if (answer == AGAIN_DIFFERENT)
        *what = "dpx_decode answers no number of a refusal";
    else if (answer == DPX_OK)
        *what = fault(a, kind, room);
    else if (!kept(a.masks, 0) || !kept(a.values, 0) || !kept(a.offsets, 0) || !kept(a.lengths, 0))
        *what = "dpx_decode refuses, and changes a byte";

    /* Ragged values were lent the room of the longest; now as much as they take. */
    if (*what == NULL && answer == DPX_OK && named(a.lengths, 1) < room.values) {
        struct array exact;
        room.values = named(a.lengths, 1);
        exact = lend_array(room);
        if (DECODE(exact) != DPX_OK)
            *what = "dpx_decode refuses outputs of the lengths that it named";
        else
            *what = fault(exact, kind, room);
        if (*what == NULL
            && (named(exact.lengths, 1) != room.values || memcmp(a.masks.at, exact.masks.at, room.masks) != 0
                || memcmp(a.values.at, exact.values.at, room.values) != 0
                || memcmp(a.offsets.at, exact.offsets.at, 8 * room.offsets) != 0))
            *what = "dpx_decode gives two arrays for one string";
        give_array_back(a);
        a = exact;
    }
    if (*what == NULL && answer == DPX_OK)
        *what = written(encode, kind, shape, shape_len, bytes, bytes_len, a, room);
    give_array_back(a);
    return *what == NULL ? answer : AGAIN_DIFFERENT;
#undef DECODE
}
