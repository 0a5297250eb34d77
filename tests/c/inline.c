/*
 * What the header itself defines: version, texts, room, cells. Compiled as C11 and as C++17. Each room is tried on the
 * archive: it is enough, and where no cell is null one byte less is refused.
 */
#include "check.h"
#include "durpaxeta.h"

#include <stdio.h>
#include <string.h>

enum { CELLS = 6, VALUES = 64 * CELLS, STORED = 1024 };

static void versions(void)
{
    char text[32];
    snprintf(text, sizeof text, "%d.%d.%d", DPX_VERSION_MAJOR, DPX_VERSION_MINOR, DPX_VERSION_PATCH);
    CHECK(strcmp(text, DPX_VERSION) == 0);
#if DPX_VERSION_NUMBER < 1000 || DPX_VERSION_NUMBER >= (DPX_VERSION_MAJOR + 1) * 1000000
#error "DPX_VERSION_NUMBER is not that of the version"
#endif
}

/* Their wording is held against the Rust crate's, by its tests. */
static void texts(void)
{
    const char *unknown = dpx_refusal_text(UINT32_MAX);
    uint32_t number, other;
    char start[32];
    CHECK(strcmp(dpx_refusal_text(DPX_OK), "done") == 0);
    CHECK(strcmp(dpx_refusal_text(DPX_FIELD + 1), unknown) == 0);
    for (number = 1; number <= DPX_FIELD; number++) {
        const char *text = dpx_refusal_text(number);
        CHECK(strcmp(text, unknown) != 0);
        snprintf(start, sizeof start, "refusal %u: ", number);
        CHECK(strncmp(text, start, strlen(start)) == 0 && strstr(text, "(caused by whoever ") != NULL);
        for (other = 1; other < number; other++)
            CHECK(strcmp(text, dpx_refusal_text(other)) != 0);
    }
}

static void counts(void)
{
    const uint64_t one[] = {6}, two[] = {2, 3}, four[] = {2, 1, 4, 8192}, zero[] = {2, 0, 3}, many[] = {256, 257};
    const uint64_t large[] = {UINT64_MAX, UINT64_MAX}, first[] = {65537}, five[] = {1, 1, 1, 1, 1};
    CHECK(dpx_cell_count(one, 1) == 6);
    CHECK(dpx_cell_count(two, 2) == 6);
    CHECK(dpx_cell_count(four, 4) == DPX_MAX_CELLS);
    CHECK(dpx_cell_count(zero, 3) == 0);
    CHECK(dpx_cell_count(many, 2) == 0);
    CHECK(dpx_cell_count(large, 2) == 0);
    CHECK(dpx_cell_count(first, 1) == 0);
    CHECK(dpx_cell_count(five, 5) == 0);
    CHECK(dpx_cell_count(NULL, 0) == 0);
}

/* As many arrangements as are counted, and the room that is enough for the last, which needs all of it. */
static void arrangements(void)
{
    const uint64_t counts[][4] = {{4, 16, 64, 256}, {5, 25, 125, 625}, {6, 36, 216, 1296}};
    uint8_t masks[8], values[12];
    uint64_t offsets[5], lengths[3], depth, cells;
    dpx_cell cell;
    for (depth = 0; depth <= DPX_MAX_ARRANGED_DEPTH; depth++)
        for (cells = 1; cells <= DPX_MAX_ARRANGED_CELLS; cells++) {
            const uint64_t count = dpx_arrangement_count(depth, cells);
            const dpx_kind kind = dpx_ragged(depth, 4, DPX_START);
            const dpx_room room = dpx_array_room(kind, cells, 3 * cells);
            CHECK(count == counts[depth][cells - 1]);
            CHECK(dpx_arrangement(depth, cells, count, masks, room.masks, values, room.values, offsets, room.offsets, lengths) ==
                  DPX_ARRANGEMENT);
            CHECK(dpx_arrangement(depth, cells, count - 1, masks, room.masks, values, room.values - 1, offsets, room.offsets, lengths) ==
                  DPX_OUTPUT);
            CHECK(dpx_arrangement(depth, cells, count - 1, masks, room.masks, values, room.values, offsets, room.offsets, lengths) == DPX_OK);
            CHECK(lengths[0] == room.masks && lengths[1] == room.values && lengths[2] == room.offsets);
            cell = dpx_get_cell(kind, cells, masks, values, offsets, cells - 1);
            CHECK(cell.null_level == 0 && cell.length == 3);
            CHECK(dpx_arrangement(depth, cells, 0, masks, room.masks, values, room.values, offsets, room.offsets, lengths) == DPX_OK);
            cell = dpx_get_cell(kind, cells, masks, values, offsets, 0);
            CHECK(cell.null_level == (depth != 0) && cell.length == 0);
        }
    CHECK(dpx_arrangement_count(3, 1) == 0 && dpx_arrangement_count(UINT64_MAX, 1) == 0);
    CHECK(dpx_arrangement_count(0, 0) == 0 && dpx_arrangement_count(0, 5) == 0 && dpx_arrangement_count(0, UINT64_MAX) == 0);
    CHECK(strstr(dpx_refusal_text(DPX_ARRANGEMENT), "refusal 19: ") != NULL);
}

/* Once moved a chunk takes what dpx_encode writes of its cells: of old strings with nothing behind their cells just that. */
static void areas(void)
{
    const dpx_kind moved = dpx_ragged(0, 8, DPX_START);
    uint64_t cells, bytes;
    for (cells = 1; cells < 20; cells++)
        for (bytes = 0; bytes < 20; bytes++)
            CHECK(dpx_area_room(1, cells, 4 + 4 * cells + bytes) == dpx_stored_room(moved, cells, bytes));
    CHECK(dpx_area_room(3, 5, 3 * 4 + 4 * 5 + 7) == 3 * 16 + 8 * 5 + 7);
    CHECK(dpx_area_room(0, 0, 0) == 0 && dpx_area_room(2, 1, 9) == 0);
    CHECK(dpx_area_room(DPX_MAX_CELLS, DPX_MAX_CELLS, 0) == 16 * DPX_MAX_CELLS && dpx_area_room(1, DPX_MAX_CELLS + 1, 9) == 0);
}

/* A byte or a bit a cell. All else of a packed kind stays. */
static void mask_forms(void)
{
    const dpx_kind bytes = dpx_ragged(2, 8, DPX_END), packed = dpx_packed(bytes);
    const uint64_t cells[] = {0, 1, 7, 8, 9, 16, 17, DPX_MAX_CELLS}, packed_bytes[] = {0, 1, 1, 1, 2, 2, 3, DPX_MAX_CELLS / 8};
    dpx_kind other = bytes;
    size_t i;
    CHECK(bytes.mask == DPX_MASK_BYTES && packed.mask == DPX_MASK_PACKED && dpx_packed(packed).mask == DPX_MASK_PACKED);
    CHECK(packed.depth == 2 && packed.form == DPX_RAGGED && packed.size == 8 && packed.order == DPX_END);
    for (i = 0; i < sizeof cells / sizeof cells[0]; i++) {
        CHECK(dpx_mask_room(bytes, cells[i]) == cells[i]);
        CHECK(dpx_mask_room(packed, cells[i]) == packed_bytes[i]);
    }
    CHECK(dpx_stored_room(packed, 9, 5) == 2 * (16 + 2) + 8 + 8 * 10 + 5);
    CHECK(dpx_array_room(packed, 9, 5).masks == 18); /* planes stay a byte a cell */
    other.mask = 2;
    CHECK(dpx_mask_room(other, 9) == 0);
}

/* One kind: six cells, all set; then one of them null at each level in turn. A ragged cell 0 is empty. */
static void kind_of(dpx_kind kind)
{
    const uint64_t shape[] = {2, 3}, cells = dpx_cell_count(shape, 2);
    const int ragged = kind.form == DPX_RAGGED;
    uint8_t masks[DPX_MAX_DEPTH * CELLS], values[VALUES], stored[STORED], out_masks[DPX_MAX_DEPTH * CELLS], out_values[STORED];
    uint64_t offsets[CELLS + 1], out_offsets[CELLS + 1], lengths[3], length = 0, number, level;
    const size_t values_len = ragged ? 15 : CELLS * kind.size, offsets_len = ragged ? CELLS + 1 : 0;
    const size_t room = dpx_stored_room(kind, cells, values_len);
    size_t i;

    memset(masks, 1, sizeof masks);
    for (i = 0; i < VALUES; i++)
        values[i] = i & 255;
    for (i = 0; i <= CELLS; i++)
        offsets[i] = i * (i - (i != 0)) / 2; /* cell i has i bytes, so cell 0 is empty */
    CHECK(offsets[CELLS] == 15);

    CHECK(room <= STORED);
    CHECK(dpx_encode(kind, shape, 2, masks, kind.depth * CELLS, values, values_len, offsets, offsets_len, stored, room - 1, &length) ==
          DPX_OUTPUT);
    CHECK(dpx_encode(kind, shape, 2, masks, kind.depth * CELLS, values, values_len, offsets, offsets_len, stored, room, &length) == DPX_OK);
    CHECK(length == room);

    for (level = 0; level <= kind.depth; level++) {
        dpx_room array;
        memset(masks, 1, sizeof masks);
        if (level > 0)
            masks[(level - 1) * CELLS + 4] = 0;
        CHECK(dpx_encode(kind, shape, 2, masks, kind.depth * CELLS, values, values_len, offsets, offsets_len, stored, room, &length) ==
              DPX_OK);
        CHECK(length == room || level > 0);
        array = dpx_array_room(kind, cells, length);
        CHECK(array.masks <= sizeof out_masks && array.values <= sizeof out_values && array.offsets <= CELLS + 1);
        CHECK(dpx_decode(kind, shape, 2, stored, length, out_masks, array.masks, out_values, array.values, out_offsets, array.offsets,
                         lengths) == DPX_OK);
        CHECK(lengths[0] == array.masks && lengths[2] == array.offsets);
        CHECK(ragged ? lengths[1] <= array.values : lengths[1] == array.values);
        for (number = 0; number < cells; number++) {
            const dpx_cell cell = dpx_get_cell(kind, cells, out_masks, out_values, out_offsets, number);
            if (level > 0 && number == 4) {
                CHECK(cell.null_level == level && cell.length == 0);
            } else {
                const size_t start = ragged ? offsets[number] : number * kind.size;
                CHECK(cell.null_level == 0 && cell.length == (ragged ? number : kind.size));
                CHECK(memcmp(cell.value, values + start, cell.length) == 0);
            }
        }
    }
}

/* A mask byte says null, set, or neither; a byte that is neither makes no cell, and is not asked for below a null. */
static void marks(void)
{
    const dpx_kind fixed = dpx_fixed(2, 1, DPX_LITTLE), ragged = dpx_ragged(2, 4, DPX_START);
    const uint8_t masks[] = {1, 2, 1, 0, 1, 1, 255, 2}, values[] = {7, 8, 9, 10};
    const uint64_t offsets[] = {0, 1, 2, 3, 4}, levels[] = {0, DPX_NO_CELL, DPX_NO_CELL, 1};
    uint64_t number;
    uint8_t byte;
    CHECK(dpx_mark_of(0) == DPX_MARK_NULL && dpx_mark_of(1) == DPX_MARK_SET);
    for (byte = 2; byte != 0; byte++)
        CHECK(dpx_mark_of(byte) == DPX_MARK_OTHER);
    for (number = 0; number < 4; number++) {
        const dpx_cell one = dpx_get_cell(fixed, 4, masks, values, NULL, number);
        const dpx_cell other = dpx_get_cell(ragged, 4, masks, values, offsets, number);
        CHECK(one.null_level == levels[number] && one.length == (levels[number] == 0));
        CHECK(other.null_level == levels[number] && other.length == (levels[number] == 0));
    }
}

/* The cells of a working table: where they lie does not matter; null is not empty. */
static void table_cells(void)
{
    const dpx_kind kind = dpx_ragged(2, 4, DPX_START);
    const uint8_t masks[] = {1, 1, 0, 1, 1, 1, 0, 0, 0, 1}, store[] = {'-', 'b', 'c', '-', 'a'};
    const uint64_t starts[] = {4, 0, 0, 0, 1}, lengths[] = {1, 0, 0, 0, 2}, levels[] = {0, 2, 1, 2, 0};
    const uint8_t other[] = {1, 2}, set[] = {1, 1};
    uint64_t number;
    for (number = 0; number < 5; number++) {
        const dpx_cell cell = dpx_table_cell(kind, 5, masks, starts, lengths, store, number);
        CHECK(cell.null_level == levels[number] && cell.length == lengths[number]);
        CHECK(memcmp(cell.value, store + starts[number], cell.length) == 0);
    }
    CHECK(dpx_table_cell(kind, 1, other, starts, lengths, store, 0).null_level == DPX_NO_CELL);
    CHECK(dpx_table_cell(kind, 1, set, starts + 1, lengths + 1, NULL, 0).null_level == 0);
    CHECK(dpx_table_cell(kind, 1, set, starts + 1, lengths + 1, NULL, 0).length == 0);
}

/* An extract, one of no cell, and a merge. */
static void boxes(void)
{
    const dpx_kind kind = dpx_ragged(1, 8, DPX_END);
    const uint64_t shape[] = {3}, offsets[] = {0, 3, 3, 7}, middle[] = {1, 2}, none[] = {3, 0};
    const uint8_t masks[] = {1, 0, 1}, values[] = {'-', 'a', 'b', 'c', 'd', 'e', 'f'};
    const uint64_t parts[] = {1, 2, 0, 1}, part_offsets[] = {0, 0, 4, 0, 2};
    const uint8_t part_masks[] = {0, 1, 1}, part_values[] = {'c', 'd', 'e', 'f', 'a', 'b'};
    uint8_t out_masks[3], out_values[7];
    uint64_t out_offsets[4], lengths[3];
    dpx_room room = dpx_array_room(kind, dpx_cell_count(middle + 1, 1), 7);
    dpx_cell cell;
    CHECK(room.masks == 2 && room.values == 7 && room.offsets == 3);
    CHECK(dpx_extract(kind, shape, 1, middle, 2, masks, 3, values, 7, offsets, 4, out_masks, room.masks, out_values, room.values, out_offsets,
                      room.offsets, lengths) == DPX_OK);
    CHECK(dpx_get_cell(kind, 2, out_masks, out_values, out_offsets, 0).null_level == 1);
    cell = dpx_get_cell(kind, 2, out_masks, out_values, out_offsets, 1);
    CHECK(cell.null_level == 0 && cell.length == 4 && memcmp(cell.value, "cdef", 4) == 0);

    room = dpx_array_room(kind, dpx_cell_count(none + 1, 1), 7);
    CHECK(room.masks == 0 && room.offsets == 1);
    CHECK(dpx_extract(kind, shape, 1, none, 2, masks, 3, values, 7, offsets, 4, out_masks, room.masks, out_values, room.values, out_offsets,
                      room.offsets, lengths) == DPX_OK);

    room = dpx_array_room(kind, dpx_cell_count(shape, 1), 6);
    CHECK(dpx_merge(kind, shape, 1, parts, 4, part_masks, 3, part_values, 6, part_offsets, 5, out_masks, room.masks, out_values, room.values,
                    out_offsets, room.offsets, lengths) == DPX_OK);
    CHECK(lengths[0] == room.masks && lengths[1] == room.values && lengths[2] == room.offsets);
    cell = dpx_get_cell(kind, 3, out_masks, out_values, out_offsets, 0);
    CHECK(cell.null_level == 0 && cell.length == 2 && memcmp(cell.value, "ab", 2) == 0);
}

/* What a guest sees: the room that is enough, cells that are hidden, and a cell of a working table that it sets. */
static void guests(void)
{
    const dpx_kind ragged = dpx_ragged(2, 4, DPX_START), fixed = dpx_fixed(1, 2, DPX_BIG);
    const uint64_t shape[] = {4}, offsets[] = {0, 1, 3, 6, 6}, levels[] = {0, 1, 2, 0};
    const uint8_t rights[] = {1, 0, 1, 1}, all[] = {1, 1, 1, 1}, set[] = {1, 1};
    const uint8_t masks[] = {1, 1, 1, 1, 1, 1, 0, 1}, values[] = {'a', 'b', 'c', 'd', 'e', 'f', 'g', 'h'};
    uint8_t out_masks[8], out_values[8], table_masks[8], store[4];
    uint64_t out_offsets[5], starts[4], cell_lengths[4], lengths[4], number;
    dpx_room room = dpx_array_room(ragged, dpx_cell_count(shape, 1), 6);
    dpx_cell cell;
    CHECK(room.masks == 8 && room.values == 6 && room.offsets == 5);
    CHECK(dpx_guest_read(ragged, shape, 1, rights, 4, masks, 8, values, 6, offsets, 5, out_masks, room.masks, out_values, room.values,
                         out_offsets, room.offsets, lengths) == DPX_OK);
    CHECK(lengths[0] == room.masks && lengths[1] == 1 && lengths[2] == room.offsets);
    for (number = 0; number < 4; number++) {
        cell = dpx_get_cell(ragged, 4, out_masks, out_values, out_offsets, number);
        CHECK(cell.null_level == levels[number] && cell.length == (number == 0));
    }
    CHECK(out_values[0] == 'a');

    /* Of a fixed kind, and where all is shown, all of the room is used. */
    room = dpx_array_room(fixed, 4, 8);
    CHECK(dpx_guest_read(fixed, shape, 1, rights, 4, all, 4, values, 8, NULL, 0, out_masks, room.masks, out_values, room.values - 1, NULL, 0,
                         lengths) == DPX_OUTPUT);
    CHECK(dpx_guest_read(fixed, shape, 1, rights, 4, all, 4, values, 8, NULL, 0, out_masks, room.masks, out_values, room.values, NULL, 0,
                         lengths) == DPX_OK);
    CHECK(lengths[0] == room.masks && lengths[1] == room.values && lengths[2] == 0);
    CHECK(dpx_get_cell(fixed, 4, out_masks, out_values, NULL, 1).null_level == 1 && out_values[2] == 0);
    cell = dpx_get_cell(fixed, 4, out_masks, out_values, NULL, 2);
    CHECK(cell.null_level == 0 && cell.length == 2 && memcmp(cell.value, "ef", 2) == 0);

    /* A store of one byte more than the cells have, for an edit that packs them. */
    CHECK(dpx_table_make(ragged, 4, masks, 8, values, 6, offsets, 5, table_masks, 8, starts, 4, cell_lengths, 4, store, 4, lengths) == DPX_OK);
    CHECK(dpx_guest_edit(ragged, 4, rights, 4, table_masks, 8, starts, 4, cell_lengths, 4, store, 4, 1, set, 2, values, 1) == DPX_HIDDEN);
    CHECK(dpx_guest_edit(ragged, 4, rights, 4, table_masks, 8, starts, 4, cell_lengths, 4, store, 4, 0, set, 2, values + 6, 2) == DPX_OK);
    cell = dpx_table_cell(ragged, 4, table_masks, starts, cell_lengths, store, 0);
    CHECK(cell.null_level == 0 && cell.length == 2 && memcmp(cell.value, "gh", 2) == 0);
    cell = dpx_table_cell(ragged, 4, table_masks, starts, cell_lengths, store, 1);
    CHECK(cell.null_level == 0 && cell.length == 2 && memcmp(cell.value, "bc", 2) == 0);
    CHECK(dpx_guest_edit(ragged, 4, rights, 4, table_masks, 8, starts, 4, cell_lengths, 4, store, 4, 0, set, 2, values, 3) == DPX_FULL);
    CHECK(strstr(dpx_refusal_text(DPX_NO_MASKS), "refusal 17: ") != NULL && strstr(dpx_refusal_text(DPX_HIDDEN), "refusal 18: ") != NULL);
    CHECK(dpx_guest_read(dpx_ragged(0, 4, DPX_START), shape, 1, rights, 4, NULL, 0, values, 6, offsets, 5, NULL, 0, out_values, 6, out_offsets,
                         5, lengths) == DPX_NO_MASKS);
}

/* What is refused asks for no memory, and an empty value needs none. */
static void edges(void)
{
    const dpx_kind ragged = dpx_ragged(0, 4, DPX_START);
    const uint64_t offsets[] = {0, 0};
    dpx_room room = dpx_array_room(dpx_fixed(UINT64_MAX, 2, DPX_LITTLE), 3, 0);
    CHECK(room.masks == 0 && room.values == 0 && room.offsets == 0);
    room = dpx_array_room(dpx_fixed(0, UINT64_MAX, DPX_LITTLE), 3, 0);
    CHECK(room.masks == 0 && room.values == 0 && room.offsets == 0);
    room = dpx_array_room(ragged, UINT64_MAX, SIZE_MAX);
    CHECK(room.masks == 0 && room.values == 0 && room.offsets == 0);
    CHECK(dpx_array_room(ragged, 1, SIZE_MAX).values == DPX_MAX_VALUE_BYTES);
    CHECK(dpx_stored_room(dpx_fixed(5, 2, DPX_LITTLE), 3, 6) == 0);
    CHECK(dpx_stored_room(ragged, UINT64_MAX, 6) == 0);
    CHECK(dpx_stored_room(ragged, 1, SIZE_MAX) == 8 + 4 * 2 + DPX_MAX_VALUE_BYTES);
    CHECK(dpx_get_cell(ragged, 1, NULL, NULL, offsets, 0).null_level == 0);
    CHECK(dpx_get_cell(ragged, 1, NULL, NULL, offsets, 0).length == 0);
}

int main(void)
{
    uint64_t depth;
    versions();
    texts();
    counts();
    arrangements();
    areas();
    mask_forms();
    marks();
    for (depth = 0; depth <= DPX_MAX_DEPTH; depth++) {
        const dpx_kind kinds[] = {dpx_fixed(depth, 1, DPX_LITTLE), dpx_fixed(depth, DPX_MAX_SIZE, DPX_BIG), dpx_ragged(depth, 4, DPX_START),
                                  dpx_ragged(depth, 8, DPX_END)};
        size_t i;
        for (i = 0; i < sizeof kinds / sizeof kinds[0]; i++) {
            kind_of(kinds[i]);
            kind_of(dpx_packed(kinds[i]));
        }
    }
    table_cells();
    boxes();
    guests();
    edges();
    printf("header: %lu checks, %lu failed\n", checks, failures);
    return failures == 0 ? 0 : 1;
}
