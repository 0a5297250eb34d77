/* Masks, values and offsets that are lent to a call, each between guards, and the lengths that it names. */
#include "lent.h"

static struct {
    uint8_t *masks, *values, *offsets_block;
    uint64_t *offsets;
    size_t masks_len, values_len, offsets_len;
    uint64_t lengths[3];
} out;

static void lend(size_t masks, size_t values, size_t offsets)
{
    out.masks = guarded(masks);
    out.values = guarded(values);
    out.offsets_block = guarded(offsets * 8);
    out.offsets = (uint64_t *)(void *)out.offsets_block;
    out.masks_len = masks;
    out.values_len = values;
    out.offsets_len = offsets;
    memset(out.lengths, FILL, sizeof out.lengths);
}

static void check_kept(size_t masks, size_t values, size_t offsets, int line)
{
    check(kept(out.masks, masks, out.masks_len), "masks beyond their length are kept", line);
    check(kept(out.values, values, out.values_len), "values beyond their length are kept", line);
    check(kept(out.offsets_block, offsets * 8, out.offsets_len * 8), "offsets beyond their length are kept", line);
}

static void check_untouched(int line)
{
    check_kept(0, 0, 0, line);
    check(out.lengths[0] == FILL64 && out.lengths[1] == FILL64 && out.lengths[2] == FILL64, "lengths are kept", line);
}

/* Refused: the number, and nothing lent has changed. */
#define REFUSED(call, wanted)           \
    do {                                \
        ANSWERS(call, wanted);          \
        check_untouched(__LINE__);      \
    } while (0)

/* Given: masks, values and offsets as named, and nothing beyond. */
static void check_gives(const uint8_t *masks, size_t masks_len, const uint8_t *values, size_t values_len,
                        const uint64_t *offsets, size_t offsets_len, int line)
{
    check(out.lengths[0] == masks_len, "length of the masks", line);
    check(out.lengths[1] == values_len, "length of the values", line);
    check(out.lengths[2] == offsets_len, "length of the offsets", line);
    check_kept(masks_len, values_len, offsets_len, line);
    check_is(out.masks, masks, masks_len, "masks", line);
    check_is(out.values, values, values_len, "values", line);
    check_is(out.offsets, offsets, offsets_len * 8, "offsets", line);
}

#define GIVES(call, ...)                        \
    do {                                        \
        ANSWERS(call, DPX_OK);                  \
        check_gives(__VA_ARGS__, __LINE__);     \
    } while (0)

/* The lent outputs as arguments. */
#define OUT3 out.masks, out.masks_len, out.values, out.values_len, out.offsets, out.offsets_len, out.lengths
