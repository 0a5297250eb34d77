/*
 * A program with no C library: of it only what the header says that the archive takes, each compiled in where its name is defined
 * as TAKES_name (tests/symbols.sh). It stores three cells and reads them again; its status is 0, or the number of what went wrong.
 */
#include "durpaxeta.h"

void *memcpy(void *to, const void *from, size_t count);
void *memmove(void *to, const void *from, size_t count);
void *memset(void *to, int byte, size_t count);
int memcmp(const void *a, const void *b, size_t count);
int run(void);

#ifdef TAKES_memcpy
void *memcpy(void *to, const void *from, size_t count)
{
    size_t i;
    for (i = 0; i < count; i++)
        ((uint8_t *)to)[i] = ((const uint8_t *)from)[i];
    return to;
}
#endif

#ifdef TAKES_memmove
void *memmove(void *to, const void *from, size_t count)
{
    uint8_t *t = to;
    const uint8_t *f = from;
    size_t i;
    for (i = 0; i < count; i++) {
        const size_t at = (uintptr_t)t < (uintptr_t)f ? i : count - 1 - i;
        t[at] = f[at];
    }
    return to;
}
#endif

#ifdef TAKES_memset
void *memset(void *to, int byte, size_t count)
{
    size_t i;
    for (i = 0; i < count; i++)
        ((uint8_t *)to)[i] = (uint8_t)byte;
    return to;
}
#endif

#ifdef TAKES_memcmp
int memcmp(const void *a, const void *b, size_t count)
{
    size_t i;
    for (i = 0; i < count; i++)
        if (((const uint8_t *)a)[i] != ((const uint8_t *)b)[i])
            return ((const uint8_t *)a)[i] < ((const uint8_t *)b)[i] ? -1 : 1;
    return 0;
}
#endif

int run(void)
{
    static const uint64_t shape[] = {3}, offsets[] = {0, 3, 3, 3};
    static const uint8_t masks[] = {1, 1, 0}, values[] = {'0', '-', '3'};
    static uint8_t stored[64], out_masks[3], out_values[64];
    static uint64_t out_offsets[4], lengths[3];
    const dpx_kind kind = dpx_ragged(1, 4, DPX_START);
    size_t i;
    if (dpx_encode(kind, shape, 1, masks, 3, values, 3, offsets, 4, stored, sizeof stored, lengths) != DPX_OK || lengths[0] != 42)
        return 1;
    if (dpx_decode(kind, shape, 1, stored, lengths[0], out_masks, 3, out_values, sizeof out_values, out_offsets, 4, lengths) != DPX_OK)
        return 2;
    for (i = 0; i < 3; i++)
        if (out_masks[i] != masks[i] || out_values[i] != values[i] || out_offsets[i] != offsets[i])
            return 3;
    return lengths[1] == 3 && out_offsets[3] == 3 ? 0 : 4;
}

/* The stack is aligned, and what run answers is the status of the system call exit. */
__asm__(".globl _start\n_start:\n\txor %ebp, %ebp\n\tand $-16, %rsp\n\tcall run\n\tmov %eax, %edi\n\tmov $60, %eax\n\tsyscall\n");
