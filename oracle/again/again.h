/*
 * Read and written again: a stored string that dpx_decode accepts must come out of dpx_encode as the very same bytes.
 *
 * The two calls are handed over, so that the archive may be linked or loaded. A fuzzer (../fuzz) and the driver (../driver) call this.
 */
#ifndef AGAIN_H
#define AGAIN_H

#include "durpaxeta.h"

#ifdef __cplusplus
extern "C" {
#endif

typedef uint32_t again_decode(dpx_kind kind, const uint64_t *shape, size_t shape_len, const uint8_t *bytes, size_t bytes_len,
                              uint8_t *out_masks, size_t out_masks_len, uint8_t *out_values, size_t out_values_len,
                              uint64_t *out_offsets, size_t out_offsets_len, uint64_t *lengths);
typedef uint32_t again_encode(dpx_kind kind, const uint64_t *shape, size_t shape_len, const uint8_t *masks, size_t masks_len,
                              const uint8_t *values, size_t values_len, const uint64_t *offsets, size_t offsets_len,
                              uint8_t *out, size_t out_len, uint64_t *lengths);

#define AGAIN_SAME 0u
#define AGAIN_DIFFERENT UINT32_MAX

/*
 * AGAIN_SAME; the number with which dpx_decode refuses the string; or AGAIN_DIFFERENT, and `*what` says what is wrong.
 *
 * Outputs are just as long as they must be. They and `lengths` lie between guard bytes that hold a pattern, as they do themselves.
 * Wrong are also: outputs that are long enough and yet too short (6), a length that is not what kind, shape and string say, a changed
 * byte beyond the named lengths or, of a refused call, any, and that dpx_encode refuses what dpx_decode gave.
 */
uint32_t again(again_decode *decode, again_encode *encode, dpx_kind kind, const uint64_t *shape, size_t shape_len,
               const uint8_t *bytes, size_t bytes_len, const char **what);

#ifdef __cplusplus
}
#endif

#endif
