/* A working table between guards: its four lists, each as long as a call is told. After a call every byte of them can be looked at. */
#include "lent.h"

static struct {
    uint8_t *masks, *starts_block, *lengths_block, *store;
    uint64_t *starts, *lengths;
    size_t masks_len, starts_len, lengths_len, store_len;
    uint64_t named[4];
} t;

/* Where there is nothing to put, what is there stays. */
static void put(uint8_t *to, const void *from, size_t size)
{
    if (from != NULL && size != 0)
        memcpy(to, from, size);
}

static void hold(const uint8_t *masks, size_t masks_len, const uint64_t *starts, size_t starts_len, const uint64_t *lengths,
                 size_t lengths_len, const uint8_t *store, size_t store_len)
{
    t.masks = guarded(masks_len);
    t.starts_block = guarded(starts_len * 8);
    t.lengths_block = guarded(lengths_len * 8);
    t.store = guarded(store_len);
    t.starts = (uint64_t *)(void *)t.starts_block;
    t.lengths = (uint64_t *)(void *)t.lengths_block;
    put(t.masks, masks, masks_len);
    put(t.starts_block, starts, starts_len * 8);
    put(t.lengths_block, lengths, lengths_len * 8);
    put(t.store, store, store_len);
    t.masks_len = masks_len;
    t.starts_len = starts_len;
    t.lengths_len = lengths_len;
    t.store_len = store_len;
    memset(t.named, FILL, sizeof t.named);
}

/* So many elements of each list are these; what is beyond them, and the guards, are as they were. */
static void check_table(const uint8_t *masks, size_t masks_len, const uint64_t *starts, size_t starts_len, const uint64_t *lengths,
                        size_t lengths_len, const uint8_t *store, size_t store_len, int line)
{
    check_is(t.masks, masks, masks_len, "masks", line);
    check_is(t.starts, starts, starts_len * 8, "starts", line);
    check_is(t.lengths, lengths, lengths_len * 8, "lengths of cells", line);
    check_is(t.store, store, store_len, "store", line);
    check(kept(t.masks, masks_len, t.masks_len), "masks beyond their length are kept", line);
    check(kept(t.starts_block, starts_len * 8, t.starts_len * 8), "starts beyond their length are kept", line);
    check(kept(t.lengths_block, lengths_len * 8, t.lengths_len * 8), "lengths beyond their length are kept", line);
    check(kept(t.store, store_len, t.store_len), "store beyond its length is kept", line);
}

/* Lists in the source, as they come in each call: S(..) starts and lengths, NO for no masks. */
#define S NUMBERS
#define NO NONE
#define HOLD(...) hold(__VA_ARGS__)
#define TABLE t.masks, t.masks_len, t.starts, t.starts_len, t.lengths, t.lengths_len, t.store, t.store_len
#define AFTER(...) check_table(__VA_ARGS__, __LINE__)

static dpx_kind r(uint64_t depth) { return dpx_ragged(depth, 8, DPX_START); }
