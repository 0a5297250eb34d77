/*
 * Every set of faults of a guest's read: the first one's refusal, and nothing changes. `values` begin with a 7. `over` is how many of them
 * are too many; 0 where that fault is left out, as of a fixed array, which cannot be too long.
 */
#include "faults.h"
#include "outputs.h"

static void read_faults(int ragged, const uint8_t *values, uint64_t over)
{
    static const uint32_t order[] = {DPX_KIND, DPX_SHAPE, DPX_NO_MASKS, DPX_CONTENT, DPX_CONTENT, DPX_SIZE, DPX_OUTPUT};
    size_t faults;

    for (faults = 0; faults < 128; faults++) {
        const uint64_t depth = faults & 4 ? 0 : 1, shape[1] = {faults & 2 ? 65537 : 2}, offsets[3] = {0, 1, faults & 32 ? over : 3};
        const dpx_kind kind = ragged ? dpx_ragged(depth, faults & 1 ? 5 : 8, DPX_START) : dpx_fixed(depth, faults & 1 ? 65 : 2, DPX_BIG);
        const uint8_t rights[2] = {1, faults & 8 ? 2 : 0}, masks[2] = {1, faults & 16 ? 2 : 1};
        const size_t values_len = ragged ? offsets[2] : 4, offsets_len = ragged ? 3 : 0;
        if (over == 0 && (faults & 32) != 0)
            continue;
        lend(2, (ragged ? 1 : 4) - (faults & 64 ? 1 : 0), offsets_len);
        check_answer(dpx_guest_read(kind, shape, 1, rights, 2, masks, 2, values, values_len, offsets, offsets_len, OUT3), first_of(order, faults),
                     "dpx_guest_read", __LINE__);
        if (faults != 0)
            check_untouched(__LINE__);
        else if (ragged)
            check_gives(BYTES(1, 0), BYTES(7), NUMBERS(0, 1, 1), __LINE__);
        else
            check_gives(BYTES(1, 0), BYTES(7, 7, 0, 0), NONE, __LINE__);
        release();
    }
}
