/*
 * The C interface of a module that was lowered with no proof (build.sh --unproved). There a kind is handed over by pointer.
 */
#include "durpaxeta.h"

uint32_t lowered_decode(const dpx_kind *kind, const uint64_t *shape, size_t shape_len, const uint8_t *bytes, size_t bytes_len,
                        uint8_t *masks, size_t masks_len, uint8_t *values, size_t values_len, uint64_t *offsets, size_t offsets_len,
                        uint64_t *lengths) __asm__("ffi::dpx_decode");
uint32_t lowered_encode(const dpx_kind *kind, const uint64_t *shape, size_t shape_len, const uint8_t *masks, size_t masks_len,
                        const uint8_t *values, size_t values_len, const uint64_t *offsets, size_t offsets_len, uint8_t *out, size_t out_len,
                        uint64_t *lengths) __asm__("ffi::dpx_encode");
uint32_t lowered_generate(const dpx_kind *kind, const uint64_t *shape, size_t shape_len, uint32_t start,
                          uint8_t *masks, size_t masks_len, uint8_t *values, size_t values_len, uint64_t *offsets, size_t offsets_len,
                          uint64_t *lengths) __asm__("ffi::dpx_generate");

uint32_t dpx_decode(dpx_kind kind, const uint64_t *shape, size_t shape_len, const uint8_t *bytes, size_t bytes_len,
                    uint8_t *out_masks, size_t out_masks_len, uint8_t *out_values, size_t out_values_len,
                    uint64_t *out_offsets, size_t out_offsets_len, uint64_t lengths[3])
{
    return lowered_decode(&kind, shape, shape_len, bytes, bytes_len, out_masks, out_masks_len, out_values, out_values_len,
                          out_offsets, out_offsets_len, lengths);
}

uint32_t dpx_encode(dpx_kind kind, const uint64_t *shape, size_t shape_len, const uint8_t *masks, size_t masks_len,
                    const uint8_t *values, size_t values_len, const uint64_t *offsets, size_t offsets_len,
                    uint8_t *out, size_t out_len, uint64_t lengths[1])
{
    return lowered_encode(&kind, shape, shape_len, masks, masks_len, values, values_len, offsets, offsets_len, out, out_len, lengths);
}

uint32_t dpx_generate(dpx_kind kind, const uint64_t *shape, size_t shape_len, uint32_t start,
                      uint8_t *out_masks, size_t out_masks_len, uint8_t *out_values, size_t out_values_len,
                      uint64_t *out_offsets, size_t out_offsets_len, uint64_t lengths[3])
{
    return lowered_generate(&kind, shape, shape_len, start, out_masks, out_masks_len, out_values, out_values_len,
                            out_offsets, out_offsets_len, lengths);
}
