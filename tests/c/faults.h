/* Sets of faults: which refusal is due. */
#include "durpaxeta.h"

/* Of faults whose bits stand in the order of the refusals, that of the first. */
static uint32_t first_of(const uint32_t *order, size_t faults)
{
    for (; faults != 0; faults >>= 1, order++)
        if (faults & 1)
            return *order;
    return DPX_OK;
}
