/*
 * How much stack the calls take: each runs on a stack of its own, filled before, and no byte below the promised 16 KiB
 * may change. Every call runs on a table of depth 4 with many cells, merge with one subset for each cell. Reading, setting,
 * previewing and packing a working table of over 2,048 cells are promised 272 KiB, and so is a guest's edit of one.
 */
#define _XOPEN_SOURCE 700
#include "durpaxeta.h"

#include <inttypes.h>
#include <stdio.h>
#include <stdlib.h>
#include <string.h>
#include <ucontext.h>

enum { PROMISED = 16 * 1024, LARGE = 272 * 1024, ROOM = 512 * 1024, CELLS = 4096, FILL = 0xA5 };
enum { SMALL_TABLE = 2048, STORE = 4 * DPX_MAX_CELLS };

static uint64_t shape[1] = {CELLS}, whole[2] = {0, CELLS}, subsets[2 * CELLS], offsets[CELLS + 1], chunk_offsets[2 * CELLS];
static uint64_t out_offsets[CELLS + 1], lengths[3];
static uint8_t masks[4 * CELLS], values[CELLS], stored[16 * CELLS], plain[16 * CELLS], old[8 * CELLS], anew[8 * CELLS];
static uint8_t out_masks[4 * CELLS], out_values[CELLS], turned[CELLS], load[64 * CELLS], wide[64 * CELLS];
/* A guest's plane, which hides every fourth cell. */
static uint8_t rights[DPX_MAX_CELLS];
static uint64_t stored_len, plain_len, old_len;
static uint32_t answer;

static const dpx_kind nested = {4, DPX_RAGGED, 8, DPX_END, DPX_MASK_BYTES};
static const dpx_kind flat = {0, DPX_RAGGED, 4, DPX_START, DPX_MASK_BYTES};

static void encode_kind(dpx_kind kind)
{
    answer = dpx_encode(kind, shape, 1, masks, 4 * CELLS, values, CELLS, offsets, CELLS + 1, stored, sizeof stored, &stored_len);
}

static void encode_nested(void) { encode_kind(nested); }

static void encode_packed(void) { encode_kind(dpx_packed(nested)); }

static void encode_flat(void)
{
    answer = dpx_encode(flat, shape, 1, NULL, 0, values, CELLS, offsets, CELLS + 1, plain, sizeof plain, &plain_len);
}

/* What was encoded last. */
static void decode_kind(dpx_kind kind)
{
    answer = dpx_decode(kind, shape, 1, stored, stored_len, out_masks, 4 * CELLS, out_values, CELLS, out_offsets, CELLS + 1, lengths);
}

static void decode_nested(void) { decode_kind(nested); }

static void decode_packed(void) { decode_kind(dpx_packed(nested)); }

static void decode_interleaved(void)
{
    answer = dpx_decode_interleaved(CELLS, old, old_len, out_values, CELLS, out_offsets, CELLS + 1, lengths);
}

static void encode_interleaved(void)
{
    answer = dpx_encode_interleaved(flat, shape, 1, NULL, 0, values, CELLS, offsets, CELLS + 1, anew, sizeof anew, lengths);
}

/* One run, and two: an output of 8 bytes a cell, and a shorter one. */
static void generate_once(void)
{
    answer = dpx_generate(nested, shape, 1, 7, out_masks, 4 * CELLS, load, 8 * CELLS, out_offsets, CELLS + 1, lengths);
}

static void generate_twice(void)
{
    answer = dpx_generate(nested, shape, 1, 7, out_masks, 4 * CELLS, load, 8 * CELLS - 1, out_offsets, CELLS + 1, lengths);
}

static void generate_fixed(void)
{
    answer = dpx_generate(dpx_fixed(4, 64, DPX_BIG), shape, 1, 7, out_masks, 4 * CELLS, load, sizeof load, NULL, 0, lengths);
}

/* The most cells, levels and bytes that an arrangement has. */
static void arrangement(void)
{
    answer = dpx_arrangement(DPX_MAX_ARRANGED_DEPTH, DPX_MAX_ARRANGED_CELLS, 1295, out_masks, 8, out_values, 12, out_offsets, 5, lengths);
}

static void extract(void)
{
    answer = dpx_extract(nested, shape, 1, whole, 2, masks, 4 * CELLS, values, CELLS, offsets, CELLS + 1, out_masks, 4 * CELLS, out_values,
                         CELLS, out_offsets, CELLS + 1, lengths);
}

static void merge(void)
{
    answer = dpx_merge(nested, shape, 1, subsets, 2 * CELLS, masks, 4 * CELLS, values, CELLS, chunk_offsets, 2 * CELLS, out_masks,
                       4 * CELLS, out_values, CELLS, out_offsets, CELLS + 1, lengths);
}

static void partial_decode(void)
{
    answer = dpx_partial_decode(4, DPX_START, shape, 1, whole, 2, plain, plain_len, out_values, CELLS, out_offsets, CELLS + 1, lengths);
}

static void reverse_endianness(void) { answer = dpx_reverse_endianness(64, turned, sizeof turned, lengths); }

static void subset_cells(void) { answer = dpx_subset_cells(shape, 1, whole, 2, out_offsets, CELLS, lengths); }

/* Room for all values, and for those alone that are shown, which then are counted. */
static void read_for_guest(size_t room)
{
    answer = dpx_guest_read(nested, shape, 1, rights, CELLS, masks, 4 * CELLS, values, CELLS, offsets, CELLS + 1, out_masks, 4 * CELLS,
                            out_values, room, out_offsets, CELLS + 1, lengths);
}

static void guest_read(void) { read_for_guest(CELLS); }

static void guest_read_counted(void) { read_for_guest(CELLS - CELLS / 4); }

static void guest_read_fixed(void)
{
    answer = dpx_guest_read(dpx_fixed(4, 64, DPX_BIG), shape, 1, rights, CELLS, masks, 4 * CELLS, load, sizeof load, NULL, 0, out_masks,
                            4 * CELLS, wide, sizeof wide, NULL, 0, lengths);
}

/*
 * A working table whose cells lie the other way round, each two bytes behind the next: all are displaced. Cell 0 is null.
 */
static uint8_t t_masks[4 * DPX_MAX_CELLS], t_store[STORE], t_values[STORE], t_out[4 * DPX_MAX_CELLS];
static uint64_t t_starts[DPX_MAX_CELLS], t_lengths[DPX_MAX_CELLS], t_offsets[DPX_MAX_CELLS + 1], t_named[4];

static void scatter(size_t cells)
{
    size_t i, level;
    for (i = 0; i < cells; i++) {
        t_lengths[i] = i != 0;
        t_starts[i] = i != 0 ? 4 * (cells - i) - 1 : 0;
        t_offsets[i + 1] = i;
        for (level = 0; level < 4; level++)
            t_masks[level * cells + i] = i != 0;
    }
}

#define TABLE(cells) t_masks, 4 * (cells), t_starts, cells, t_lengths, cells, t_store, 4 * (cells)

static void table_make(void)
{
    scatter(DPX_MAX_CELLS);
    answer = dpx_table_make(nested, DPX_MAX_CELLS, t_masks, 4 * DPX_MAX_CELLS, t_values, DPX_MAX_CELLS - 1, t_offsets, DPX_MAX_CELLS + 1,
                            t_out, sizeof t_out, t_starts, DPX_MAX_CELLS, t_lengths, DPX_MAX_CELLS, t_store, STORE, t_named);
}

static void table_read(size_t cells)
{
    scatter(cells);
    answer = dpx_table_read(nested, cells, TABLE(cells), t_out, sizeof t_out, t_values, STORE, t_offsets, cells + 1, t_named);
}

static void table_set(size_t cells)
{
    static const uint8_t set[4] = {1, 1, 1, 1};
    scatter(cells);
    /* All the room that is left: the cells are packed beforehand. */
    answer = dpx_table_set(nested, cells, TABLE(cells), 1, set, 4, t_values, 3 * cells);
}

/* The same, asked for before: with packing, and behind the highest-lying cell. */
static void table_preview(size_t cells, size_t length)
{
    static const uint8_t set[4] = {1, 1, 1, 1};
    scatter(cells);
    answer = dpx_table_preview(nested, cells, TABLE(cells), 1, set, 4, t_values, length, t_named);
}

/* As table_set, by a guest; a cell that its plane hides is not set. */
static void guest_edit(size_t cells, size_t cell)
{
    static const uint8_t set[4] = {1, 1, 1, 1};
    scatter(cells);
    answer = dpx_guest_edit(nested, cells, rights, cells, TABLE(cells), cell, set, 4, t_values, 3 * cells);
}

static void table_pack(size_t cells)
{
    scatter(cells);
    answer = dpx_table_pack(nested, cells, TABLE(cells), DPX_MAX_MOVES, t_named);
}

static void read_small(void) { table_read(SMALL_TABLE); }

static void read_large(void) { table_read(DPX_MAX_CELLS); }

static void set_small(void) { table_set(SMALL_TABLE); }

static void set_large(void) { table_set(DPX_MAX_CELLS); }

static void preview_small(void) { table_preview(SMALL_TABLE, 3 * SMALL_TABLE); }

static void preview_large(void) { table_preview(DPX_MAX_CELLS, 3 * DPX_MAX_CELLS); }

static void preview_behind(void) { table_preview(DPX_MAX_CELLS, 4); }

static void edit_small(void) { guest_edit(SMALL_TABLE, 1); }

static void edit_large(void) { guest_edit(DPX_MAX_CELLS, 1); }

/* Refused with 18, as it should be, which counts as 0 here. */
static void edit_hidden(void)
{
    guest_edit(DPX_MAX_CELLS, 3);
    answer -= DPX_HIDDEN;
}

static void pack_small(void) { table_pack(SMALL_TABLE); }

static void pack_large(void) { table_pack(DPX_MAX_CELLS); }

/* A live table with a chunk for each cell, half of them moved; a chunk that is all of it; and cuts of either. */
static uint8_t l_old[9 * CELLS], l_area[25 * CELLS], l_whole[9 * CELLS + 16];
static uint64_t l_lengths[CELLS], l_moved[CELLS];

static void make_live(void)
{
    size_t i;
    memset(l_old, 0, sizeof l_old);
    memset(l_area, 0, sizeof l_area);
    for (i = 0; i < CELLS; i++) {
        l_lengths[i] = 9;
        l_moved[i] = 25;
        l_old[9 * i] = l_old[9 * i + 4] = 1;
        l_area[25 * i] = 16;
        l_area[25 * i + 16] = 1;
    }
}

static void migrate_step(void)
{
    make_live();
    answer = dpx_migrate_step(shape, 1, subsets, 2 * CELLS, l_lengths, CELLS, l_old, sizeof l_old, CELLS / 2, l_moved, CELLS, l_area,
                              sizeof l_area, lengths);
}

static void migrate_step_whole(void)
{
    uint64_t moved[1] = {0};
    answer = dpx_migrate_step(shape, 1, whole, 2, &old_len, 1, old, old_len, 0, moved, 1, l_whole, sizeof l_whole, lengths);
}

static void migrate_extract(void)
{
    make_live();
    answer = dpx_migrate_extract(shape, 1, subsets, 2 * CELLS, whole, 2, l_lengths, CELLS, l_old, sizeof l_old, CELLS / 2, l_moved, CELLS,
                                 l_area, sizeof l_area, out_values, CELLS, out_offsets, CELLS + 1, lengths);
}

static void migrate_extract_whole(void)
{
    const uint64_t moved[1] = {0};
    answer = dpx_migrate_extract(shape, 1, whole, 2, whole, 2, &old_len, 1, old, old_len, 0, moved, 1, NULL, 0, out_values, CELLS,
                                 out_offsets, CELLS + 1, lengths);
}

static void nothing(void) { answer = 0; }

static ucontext_t here, there;

/* Bytes of stack that `call` touches. */
static size_t used(void (*call)(void))
{
    static uint8_t stack[ROOM];
    size_t i = 0;
    memset(stack, FILL, ROOM);
    if (getcontext(&there) != 0)
        exit(2);
    there.uc_stack.ss_sp = stack;
    there.uc_stack.ss_size = ROOM;
    there.uc_link = &here;
    makecontext(&there, call, 0);
    if (swapcontext(&here, &there) != 0)
        exit(2);
    while (i < ROOM && stack[i] == FILL)
        i++;
    return ROOM - i;
}

int main(void)
{
    static const struct {
        const char *name;
        void (*call)(void);
        size_t promised; /* 16 KiB where it is 0 */
    } calls[] = {{"encode", encode_nested, 0},
                 {"encode, depth 0", encode_flat, 0},
                 {"decode", decode_nested, 0},
                 {"encode, packed", encode_packed, 0},
                 {"decode, packed", decode_packed, 0},
                 {"decode_interleaved", decode_interleaved, 0},
                 {"encode_interleaved", encode_interleaved, 0},
                 {"generate", generate_once, 0},
                 {"generate, two runs", generate_twice, 0},
                 {"generate, fixed", generate_fixed, 0},
                 {"arrangement", arrangement, 0},
                 {"extract", extract, 0},
                 {"merge", merge, 0},
                 {"partial_decode", partial_decode, 0},
                 {"reverse_endianness", reverse_endianness, 0},
                 {"subset_cells", subset_cells, 0},
                 {"table_make", table_make, 0},
                 {"table_read", read_small, 0},
                 {"table_set", set_small, 0},
                 {"table_preview", preview_small, 0},
                 {"table_pack", pack_small, 0},
                 {"table_read, large", read_large, LARGE},
                 {"table_set, large", set_large, LARGE},
                 {"table_preview, large", preview_large, LARGE},
                 {"table_preview, behind", preview_behind, LARGE},
                 {"table_pack, large", pack_large, LARGE},
                 {"guest_read", guest_read, 0},
                 {"guest_read, counted", guest_read_counted, 0},
                 {"guest_read, fixed", guest_read_fixed, 0},
                 {"guest_edit", edit_small, 0},
                 {"guest_edit, large", edit_large, LARGE},
                 {"guest_edit, hidden", edit_hidden, LARGE},
                 {"migrate_step", migrate_step, 0},
                 {"migrate_step, whole", migrate_step_whole, 0},
                 {"migrate_extract", migrate_extract, 0},
                 {"migrate_extract, whole", migrate_extract_whole, 0}};
    size_t i, idle, failed = 0;

    for (i = 0; i < CELLS; i++) {
        subsets[2 * i] = i;
        subsets[2 * i + 1] = 1;
        offsets[i + 1] = i + 1;
        chunk_offsets[2 * i + 1] = 1;
        values[i] = (uint8_t)i;
    }
    memset(masks, 1, sizeof masks);
    masks[0] = 0; /* so that inner levels have fewer cells */
    for (i = 0; i < DPX_MAX_CELLS; i++)
        rights[i] = i % 4 != 3;
    old[0] = CELLS & 255;
    old[1] = CELLS >> 8;
    old_len = 4;
    for (i = 0; i < CELLS; i++, old_len += 5)
        old[old_len] = 1;

    idle = used(nothing);
    for (i = 0; i < sizeof calls / sizeof calls[0]; i++) {
        const size_t size = used(calls[i].call) - idle, promised = calls[i].promised != 0 ? calls[i].promised : PROMISED;
        const int fine = answer == 0 && size <= promised;
        printf("stack of %-22s %6zu bytes%s\n", calls[i].name, size, fine ? "" : "  FAILED");
        if (!fine) {
            printf("  answer %" PRIu32 "; at most %zu bytes are promised\n", answer, promised);
            failed++;
        }
    }
    return failed == 0 ? 0 : 1;
}
