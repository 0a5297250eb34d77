/*
 * Guests from C: the lines of docs/SPEC.md, S10.47 to S10.51, every refusal of both calls in its order, what stays untouched, and what
 * a guest is told.
 *
 * Of a read: two arrays that agree only where the plane shows them give the same, into outputs of any length, and it is what is worked
 * out here. Of an edit: where the plane shows the cell it is dpx_table_set, made on a copy, and no cell that the plane hides changes.
 */
#include "read_faults.h"
#include "held.h"

/* Values and a store of one byte more than a store may have, which no call changes; drawn values are shorter than LONGEST. */
enum { OVER = DPX_MAX_STORE + 1, LONGEST = 9 };
static uint8_t over[OVER], over_store[OVER];

static uint32_t state = 1;

static uint32_t draw(void)
{
    state = state * 1664525u + 1013904223u;
    return state >> 16;
}

/* Whether every byte is 7, as all are at first. */
static int all_are_7(const uint8_t *bytes) { return bytes[0] == 7 && memcmp(bytes, bytes + 1, OVER - 1) == 0; }

/* ---------------------------------------------------------------------------------------------------------- read */

static void test_read(void)
{
    const uint8_t *set;

    /* 6 goes by what is shown: one value byte is enough, where the array has two. */
    lend(2, 1, 3);
    GIVES(dpx_guest_read(r(1), NUMBERS(2), BYTES(1, 0), BYTES(1, 1), TEXT("ab"), NUMBERS(0, 1, 2), OUT3), BYTES(1, 0), TEXT("a"),
          NUMBERS(0, 1, 1));
    lend(2, 1, 3);
    REFUSED(dpx_guest_read(r(1), NUMBERS(2), BYTES(1, 1), BYTES(1, 1), TEXT("ab"), NUMBERS(0, 1, 2), OUT3), DPX_OUTPUT);
    lend(2, 0, 3);
    GIVES(dpx_guest_read(r(1), NUMBERS(2), BYTES(0, 0), BYTES(1, 1), TEXT("ab"), NUMBERS(0, 1, 2), OUT3), BYTES(0, 0), NONE,
          NUMBERS(0, 0, 0));
    /* A null that is shown has no value either. */
    lend(2, 1, 3);
    GIVES(dpx_guest_read(r(1), NUMBERS(2), BYTES(1, 1), BYTES(1, 0), TEXT("ab"), NUMBERS(0, 1, 2), OUT3), BYTES(1, 0), TEXT("a"),
          NUMBERS(0, 1, 1));
    release();

    /* Every level of a hidden cell is 00, and its value zero bytes or none. Outputs keep what is beyond. */
    lend(3, 1, 3);
    GIVES(dpx_guest_read(r(2), NUMBERS(1), BYTES(0), BYTES(1, 1), TEXT("a"), NUMBERS(0, 1), OUT3), BYTES(0, 0), NONE, NUMBERS(0, 0));
    lend(2, 1, 2);
    GIVES(dpx_guest_read(r(2), NUMBERS(1), BYTES(0), BYTES(0, 1), TEXT("a"), NUMBERS(0, 1), OUT3), BYTES(0, 0), NONE, NUMBERS(0, 0));
    lend(2, 5, 1);
    GIVES(dpx_guest_read(dpx_fixed(1, 2, DPX_LITTLE), NUMBERS(2), BYTES(0, 1), BYTES(1, 1), BYTES(10, 11, 12, 13), NONE, OUT3), BYTES(0, 1),
          BYTES(0, 0, 12, 13), NONE);
    /* Rest form below the nulls that are shown, each at its level. */
    lend(6, 3, 0);
    GIVES(dpx_guest_read(dpx_fixed(2, 1, DPX_BIG), NUMBERS(1, 3), BYTES(1, 1, 0), BYTES(1, 0, 1, 0, 1, 1), TEXT("abc"), NONE, OUT3),
          BYTES(1, 0, 0, 0, 0, 0), BYTES(0, 0, 0), NONE);
    /* Inputs may overlap: a plane that is the array's own mask. */
    set = in((const uint8_t[]){0, 1, 1}, 3);
    lend(3, 2, 4);
    GIVES(dpx_guest_read(r(1), NUMBERS(3, 1), set, 3, set, 3, TEXT("abc"), NUMBERS(0, 1, 1, 3), OUT3), BYTES(0, 1, 1), TEXT("bc"),
          NUMBERS(0, 0, 0, 2));
    release();
}

/* A plane of so many cells with one byte over 01; nothing else is wrong but the outputs. */
static void other_byte(size_t cells, size_t at, uint8_t byte)
{
    const uint64_t shape[1] = {cells};
    uint8_t *rights = block(cells), *masks = block(cells), *values = block(cells);
    memset(rights, 1, cells);
    memset(masks, 0, cells);
    memset(values, 7, cells);
    rights[at] = byte;
    lend(0, 0, 0);
    REFUSED(dpx_guest_read(dpx_fixed(1, 1, DPX_LITTLE), shape, 1, rights, cells, masks, cells, values, cells, NONE, OUT3), DPX_CONTENT);
    rights[at] = 0;
    REFUSED(dpx_guest_read(dpx_fixed(1, 1, DPX_LITTLE), shape, 1, rights, cells, masks, cells, values, cells, NONE, OUT3), DPX_OUTPUT);
    release();
}

static void test_read_refusals(void)
{
    static const size_t counts[] = {1, 2, 16, 17, 239, 240, 241, 480, 481, 1000};
    const dpx_kind f1 = dpx_fixed(1, 1, DPX_LITTLE);
    uint32_t byte;
    size_t i;

    /* 17 right after 2, before every 4, and of a fixed kind too. */
    lend(0, 0, 0);
    REFUSED(dpx_guest_read(r(0), NONE, NONE, NONE, NONE, NONE, OUT3), DPX_SHAPE);
    REFUSED(dpx_guest_read(r(0), NUMBERS(1), NONE, NONE, NONE, NUMBERS(0, 0), OUT3), DPX_NO_MASKS);
    REFUSED(dpx_guest_read(r(0), NUMBERS(1), BYTES(1), NONE, NONE, NUMBERS(0, 0), OUT3), DPX_NO_MASKS);
    REFUSED(dpx_guest_read(r(0), NUMBERS(1), BYTES(2, 2), BYTES(2), TEXT("a"), NUMBERS(1, 0), OUT3), DPX_NO_MASKS);
    REFUSED(dpx_guest_read(dpx_fixed(0, 2, DPX_LITTLE), NUMBERS(1), NONE, NONE, NONE, NONE, OUT3), DPX_NO_MASKS);
    REFUSED(dpx_guest_read(dpx_packed(dpx_fixed(0, 2, DPX_BIG)), NUMBERS(1), BYTES(0), NONE, TEXT("ab"), NONE, OUT3), DPX_NO_MASKS);
    release();

    /* 4 of the plane: exactly one byte a cell, not one a mask byte, and each 00 or 01. */
    lend(0, 0, 0);
    REFUSED(dpx_guest_read(r(1), NUMBERS(2), BYTES(1, 2), BYTES(1, 1), TEXT("ab"), NUMBERS(0, 1, 2), OUT3), DPX_CONTENT);
    REFUSED(dpx_guest_read(r(1), NUMBERS(2), BYTES(1), BYTES(1, 1), TEXT("ab"), NUMBERS(0, 1, 2), OUT3), DPX_CONTENT);
    REFUSED(dpx_guest_read(r(1), NUMBERS(2), NONE, BYTES(1, 1), TEXT("ab"), NUMBERS(0, 1, 2), OUT3), DPX_CONTENT);
    REFUSED(dpx_guest_read(r(1), NUMBERS(2), BYTES(1, 0, 0), BYTES(1, 1), TEXT("ab"), NUMBERS(0, 1, 2), OUT3), DPX_CONTENT);
    REFUSED(dpx_guest_read(r(2), NUMBERS(1), BYTES(1, 1), BYTES(1, 1), TEXT("a"), NUMBERS(0, 1), OUT3), DPX_CONTENT);
    REFUSED(dpx_guest_read(r(2), NUMBERS(1), BYTES(1), BYTES(1, 1), TEXT("a"), NUMBERS(0, 1), OUT3), DPX_OUTPUT);
    release();
    for (byte = 2; byte < 256; byte++)
        other_byte(2, byte & 1, (uint8_t)byte);
    for (i = 0; i < sizeof counts / sizeof counts[0]; i++) {
        other_byte(counts[i], 0, 2);
        other_byte(counts[i], counts[i] / 2, 128);
        other_byte(counts[i], counts[i] - 1, 255);
    }

    /* 4 of the array: all of it is looked at, what the plane hides too. */
    lend(0, 0, 0);
    REFUSED(dpx_guest_read(f1, NUMBERS(1), BYTES(0), BYTES(2), TEXT("a"), NONE, OUT3), DPX_CONTENT);
    REFUSED(dpx_guest_read(dpx_packed(f1), NUMBERS(1), BYTES(0), BYTES(255), TEXT("a"), NONE, OUT3), DPX_CONTENT);
    REFUSED(dpx_guest_read(r(2), NUMBERS(1), BYTES(0), BYTES(0, 2), NONE, NUMBERS(0, 0), OUT3), DPX_CONTENT);
    REFUSED(dpx_guest_read(f1, NUMBERS(1), BYTES(0), NONE, TEXT("a"), NONE, OUT3), DPX_CONTENT);
    REFUSED(dpx_guest_read(f1, NUMBERS(1), BYTES(0), BYTES(1, 1), TEXT("a"), NONE, OUT3), DPX_CONTENT);
    REFUSED(dpx_guest_read(f1, NUMBERS(1), BYTES(0), BYTES(1), NONE, NONE, OUT3), DPX_CONTENT);
    REFUSED(dpx_guest_read(f1, NUMBERS(1), BYTES(0), BYTES(1), TEXT("ab"), NONE, OUT3), DPX_CONTENT);
    REFUSED(dpx_guest_read(f1, NUMBERS(1), BYTES(0), BYTES(1), TEXT("a"), NUMBERS(0, 1), OUT3), DPX_CONTENT);
    REFUSED(dpx_guest_read(r(1), NUMBERS(1), BYTES(0), BYTES(1), TEXT("a"), NUMBERS(0), OUT3), DPX_CONTENT);
    REFUSED(dpx_guest_read(r(1), NUMBERS(1), BYTES(0), BYTES(1), TEXT("a"), NUMBERS(1, 1), OUT3), DPX_CONTENT);
    REFUSED(dpx_guest_read(r(1), NUMBERS(1), BYTES(0), BYTES(1), TEXT("a"), NUMBERS(0, 0), OUT3), DPX_CONTENT);
    REFUSED(dpx_guest_read(r(1), NUMBERS(2), BYTES(0, 0), BYTES(1, 1), TEXT("a"), NUMBERS(0, 2, 1), OUT3), DPX_CONTENT);
    REFUSED(dpx_guest_read(r(1), NUMBERS(1), BYTES(0), BYTES(1), TEXT("a"), NUMBERS(0, 1), OUT3), DPX_OUTPUT);
    release();
}

/* ---------------------------------------------------------------------------------------------------------- told */

struct cell {
    uint8_t masks[DPX_MAX_DEPTH], value[DPX_MAX_SIZE];
    size_t length;
};

/* Any masks, and any value behind them. */
static struct cell draw_cell(dpx_kind kind)
{
    const size_t most = kind.form == DPX_RAGGED ? LONGEST : kind.size;
    struct cell cell;
    size_t i;
    memset(&cell, 0, sizeof cell);
    for (i = 0; i < DPX_MAX_DEPTH; i++)
        cell.masks[i] = draw() % 4 != 0;
    for (i = 0; i < most; i++)
        cell.value[i] = draw() & 255;
    cell.length = kind.form == DPX_RAGGED ? draw() % LONGEST : kind.size;
    return cell;
}

/* In rest form, which a cell that is not shown has as a null at level 1. */
static struct cell rested(dpx_kind kind, struct cell cell, int shown)
{
    size_t level;
    for (level = 0; level < kind.depth; level++)
        cell.masks[level] = shown = shown && cell.masks[level];
    if (!shown) {
        memset(cell.value, 0, sizeof cell.value);
        cell.length = kind.form == DPX_RAGGED ? 0 : kind.size;
    }
    return cell;
}

/* A cell that is the same in rest form, and any other below its null. */
static struct cell agreeing(dpx_kind kind, struct cell cell)
{
    struct cell any = draw_cell(kind);
    size_t level;
    for (level = 0; level < kind.depth; level++) {
        any.masks[level] = cell.masks[level];
        if (!cell.masks[level])
            return any;
    }
    return cell;
}

/* A cell of any masks, whose value is surely another: in its first byte, or in its length. */
static struct cell differing(dpx_kind kind, struct cell cell)
{
    struct cell any = draw_cell(kind);
    if (kind.form == DPX_FIXED)
        any.value[0] = (uint8_t)~cell.value[0];
    else if (any.length == cell.length)
        any.length = (cell.length + 1) % LONGEST;
    return any;
}

struct array {
    uint8_t masks[DPX_MAX_DEPTH * DPX_MAX_CELLS], values[DPX_MAX_SIZE * DPX_MAX_CELLS];
    uint64_t offsets[DPX_MAX_CELLS + 1];
    size_t values_len;
};

static void put_cell(struct array *array, dpx_kind kind, size_t cells, size_t number, struct cell cell)
{
    size_t level;
    for (level = 0; level < kind.depth; level++)
        array->masks[level * cells + number] = cell.masks[level];
    memcpy(array->values + array->values_len, cell.value, cell.length);
    array->values_len += cell.length;
    array->offsets[number + 1] = array->values_len;
}

/* Two arrays that agree where a plane shows them, and what is seen of both. */
static struct array one, other, seen;

static void draw_arrays(dpx_kind kind, size_t cells, const uint8_t *rights)
{
    size_t i;
    one.values_len = other.values_len = seen.values_len = 0;
    for (i = 0; i < cells; i++) {
        const struct cell cell = draw_cell(kind);
        put_cell(&one, kind, cells, i, cell);
        put_cell(&other, kind, cells, i, rights[i] ? agreeing(kind, cell) : differing(kind, cell));
        put_cell(&seen, kind, cells, i, rested(kind, cell, rights[i]));
    }
}

/* What one of them gives into outputs of these lengths: what is seen, or 6 and nothing. What is handed over stays. */
static void sees(const struct array *array, dpx_kind kind, size_t cells, const uint8_t *rights, size_t masks, size_t values, size_t offsets)
{
    const uint64_t shape[1] = {cells};
    const size_t planes = kind.depth * cells, count = kind.form == DPX_RAGGED ? cells + 1 : 0, left = block_count;
    const int enough = masks >= planes && values >= seen.values_len && offsets >= count;
    const uint8_t *own = in(rights, cells), *own_masks = in(array->masks, planes), *own_values = in(array->values, array->values_len);
    const uint64_t *own_offsets = in(array->offsets, 8 * count);
    lend(masks, values, offsets);
    ANSWERS(dpx_guest_read(kind, shape, 1, own, cells, own_masks, planes, own_values, array->values_len, own_offsets, count, OUT3),
            enough ? DPX_OK : DPX_OUTPUT);
    if (enough)
        check_gives(seen.masks, planes, seen.values, seen.values_len, seen.offsets, count, __LINE__);
    else
        check_untouched(__LINE__);
    check_is(own, rights, cells, "rights are kept", __LINE__);
    check_is(own_masks, array->masks, planes, "masks handed over are kept", __LINE__);
    check_is(own_values, array->values, array->values_len, "values handed over are kept", __LINE__);
    check_is(own_offsets, array->offsets, 8 * count, "offsets handed over are kept", __LINE__);
    release_to(left);
}

static void both_see(dpx_kind kind, size_t cells, const uint8_t *rights, size_t masks, size_t values, size_t offsets)
{
    sees(&one, kind, cells, rights, masks, values, offsets);
    sees(&other, kind, cells, rights, masks, values, offsets);
}

/* How far outputs of every length are tried: not, each output beside two that are enough, or all three together. */
enum lengths { FEW_LENGTHS, EACH_LENGTH, ALL_LENGTHS };

static void compare(dpx_kind kind, size_t cells, const uint8_t *rights, enum lengths lengths)
{
    const size_t planes = kind.depth * cells, count = kind.form == DPX_RAGGED ? cells + 1 : 0;
    const unsigned long before = failures;
    dpx_kind otherwise = kind;
    size_t values, i, j, k;

    draw_arrays(kind, cells, rights);
    values = seen.values_len;
    both_see(kind, cells, rights, planes, values, count);
    both_see(kind, cells, rights, planes + 1, values + 9, count + 1);
    both_see(kind, cells, rights, planes - 1, values, count);
    if (values != 0)
        both_see(kind, cells, rights, planes, values - 1, count);
    if (count != 0)
        both_see(kind, cells, rights, planes, values, count - 1);
    /* How it is stored says nothing: the form of masks, the order of bytes, width and place of the index. */
    both_see(dpx_packed(kind), cells, rights, planes, values, count);
    otherwise.order = kind.order == 0;
    if (kind.form == DPX_RAGGED)
        otherwise.size = 12 - kind.size;
    both_see(otherwise, cells, rights, planes, values, count);

    if (lengths == EACH_LENGTH) {
        for (i = 0; i < planes; i++)
            both_see(kind, cells, rights, i, values, count);
        for (i = 0; i < values; i++)
            both_see(kind, cells, rights, planes, i, count);
        for (i = 0; i < count; i++)
            both_see(kind, cells, rights, planes, values, i);
    } else if (lengths == ALL_LENGTHS) {
        for (i = 0; i <= planes + 1; i++)
            for (j = 0; j <= values + 1; j++)
                for (k = 0; k <= count + 1; k++)
                    both_see(kind, cells, rights, i, j, k);
    }
    if (failures != before)
        printf("  of %zu cells of depth %" PRIu64 ", form %" PRIu64 ", size %" PRIu64 "\n", cells, kind.depth, kind.form, kind.size);
}

static uint8_t plane[DPX_MAX_CELLS];

/* Planes of few cells, each there is; then longer ones. */
static void compare_kind(dpx_kind kind)
{
    static const size_t counts[] = {7, 8, 9, 16, 17, 64, 240, 241, 1000};
    size_t i, j;
    for (i = 0; i < 4; i++) {
        plane[0] = i & 1;
        plane[1] = i >> 1;
        compare(kind, 2, plane, kind.form == DPX_RAGGED && kind.depth <= 2 ? ALL_LENGTHS : FEW_LENGTHS);
    }
    for (i = 0; i < 8; i++) {
        for (j = 0; j < 3; j++)
            plane[j] = i >> j & 1;
        compare(kind, 3, plane, EACH_LENGTH);
    }
    for (i = 0; i < sizeof counts / sizeof counts[0]; i++) {
        for (j = 0; j < counts[i]; j++)
            plane[j] = draw() & 1;
        compare(kind, counts[i], plane, FEW_LENGTHS);
    }
}

static void test_told(void)
{
    static const uint64_t sizes[] = {1, 2, 3, 4, 5, 6, 7, 8, 9, 12, 15, 16, 17, 24, 64};
    uint64_t depth;
    size_t i;
    for (depth = 1; depth <= DPX_MAX_DEPTH; depth++) {
        for (i = 0; i < sizeof sizes / sizeof sizes[0]; i++)
            compare_kind(dpx_fixed(depth, sizes[i], i & 1 ? DPX_BIG : DPX_LITTLE));
        compare_kind(dpx_ragged(depth, 4, DPX_START));
        compare_kind(dpx_ragged(depth, 8, DPX_END));
    }
    /* As many cells as there can be. */
    for (i = 0; i < DPX_MAX_CELLS; i++)
        plane[i] = draw() & 1;
    compare(r(4), DPX_MAX_CELLS, plane, FEW_LENGTHS);
    compare(dpx_fixed(1, 1, DPX_LITTLE), DPX_MAX_CELLS, plane, FEW_LENGTHS);
    compare(dpx_fixed(2, 12, DPX_BIG), DPX_MAX_CELLS, plane, FEW_LENGTHS);
}

/* ---------------------------------------------------------------------------------------------------------- edit */

struct table {
    uint8_t *masks, *store;
    uint64_t *starts, *lengths;
};

static struct table copied(void)
{
    struct table copy;
    copy.masks = in(t.masks, t.masks_len);
    copy.starts = in(t.starts, t.starts_len * 8);
    copy.lengths = in(t.lengths, t.lengths_len * 8);
    copy.store = in(t.store, t.store_len);
    return copy;
}

/* How often each answer was met, and hidden cells that were moved. */
static size_t met[DPX_HIDDEN + 1], moved;

/* Whether a cell of the table has the masks and the value that it had. */
static int is_as_before(dpx_kind kind, size_t cells, struct table before, size_t number)
{
    const dpx_cell was = dpx_table_cell(kind, cells, before.masks, before.starts, before.lengths, before.store, number);
    const dpx_cell is = dpx_table_cell(kind, cells, t.masks, t.starts, t.lengths, t.store, number);
    uint64_t level;
    for (level = 0; level < kind.depth; level++)
        if (before.masks[level * cells + number] != t.masks[level * cells + number])
            return 0;
    return is.null_level == was.null_level && is.length == was.length && (is.length == 0 || memcmp(is.value, was.value, is.length) == 0);
}

/*
 * An edit of the table. Made, or refused with 16: the setting of a copy is answered alike, and leaves the same lists. Refused with another
 * number: every list is as it was. What is handed over stays, and so do the cells that the plane hides.
 */
static void edit(dpx_kind kind, uint64_t cells, const uint8_t *rights, size_t rights_len, uint64_t cell, const uint8_t *masks,
                 size_t masks_len, const uint8_t *value, size_t value_len, uint32_t wanted, int line)
{
    const size_t left = block_count;
    const struct table before = copied(), copy = copied();
    const uint8_t *own = in(rights, rights_len), *own_masks = in(masks, masks_len), *own_value = in(value, value_len);
    size_t i, changed = 0;
    check_answer(dpx_guest_edit(kind, cells, own, rights_len, TABLE, cell, own_masks, masks_len, own_value, value_len), wanted, "dpx_guest_edit",
                 line);
    if (wanted == DPX_OK || wanted == DPX_FULL)
        check_answer(dpx_table_set(kind, cells, copy.masks, t.masks_len, copy.starts, t.starts_len, copy.lengths, t.lengths_len, copy.store,
                                   t.store_len, cell, masks, masks_len, value, value_len),
                     wanted, "dpx_table_set", line);
    check_table(copy.masks, t.masks_len, copy.starts, t.starts_len, copy.lengths, t.lengths_len, copy.store, t.store_len, line);
    check_is(own, rights, rights_len, "rights are kept", line);
    check_is(own_masks, masks, masks_len, "masks of the setting are kept", line);
    check_is(own_value, value, value_len, "value is kept", line);
    for (i = 0; wanted == DPX_OK && i < cells; i++)
        if (!rights[i]) {
            changed += !is_as_before(kind, cells, before, i);
            moved += before.starts[i] != t.starts[i];
        }
    check(changed == 0, "masks and value of hidden cells are kept", line);
    met[wanted]++;
    release_to(left);
}

#define EDITS(kind, cells, rights, cell, masks, value) edit(kind, cells, rights, cell, masks, value, DPX_OK, __LINE__)
#define NOT_EDITED(kind, cells, rights, cell, masks, value, wanted) edit(kind, cells, rights, cell, masks, value, wanted, __LINE__)

static void test_edit(void)
{
    /* All are packed first, so the hidden cell moves; its mask and its value stay. */
    HOLD(BYTES(1, 1), S(1, 0), S(1, 1), TEXT("yx."));
    EDITS(r(1), 2, BYTES(0, 1), 1, BYTES(1), TEXT("zz"));
    AFTER(BYTES(1, 1), S(0, 1), S(1, 2), TEXT("xzz"));
    /* Behind the hidden cell, which lies highest. Of the kind the depth counts alone. */
    HOLD(BYTES(1, 1), S(1, 0), S(1, 1), TEXT("yx."));
    EDITS(dpx_packed(dpx_ragged(1, 4, DPX_END)), 2, BYTES(0, 1), 1, BYTES(1), TEXT("z"));
    AFTER(BYTES(1, 1), S(1, 2), S(1, 1), TEXT("yxz"));
    /* A null drops the value, and the rest below it. */
    HOLD(BYTES(1, 1, 1, 1), S(1, 0), S(1, 1), TEXT("yx"));
    EDITS(r(2), 2, BYTES(0, 1), 1, BYTES(0, 1), TEXT("abc"));
    AFTER(BYTES(1, 0, 1, 0), S(1, 0), S(1, 0), TEXT("yx"));
    /* Empty is not null. */
    EDITS(r(2), 2, BYTES(0, 1), 1, BYTES(1, 1), NONE);
    AFTER(BYTES(1, 1, 1, 1), S(1, 0), S(1, 0), TEXT("yx"));
    release();
}

/* One rule of the table broken in the cell that is hidden: 4 all the same, before 15, 18 and 16. */
#define BROKEN(masks, starts, lengths)                                                      \
    do {                                                                                    \
        HOLD(masks, starts, lengths, TEXT("xyz"));                                          \
        NOT_EDITED(r(1), 2, BYTES(0, 1), 1, BYTES(1), TEXT("k"), DPX_CONTENT);              \
        NOT_EDITED(r(1), 2, BYTES(0, 1), 0, BYTES(1), TEXT("kkkk"), DPX_CONTENT);           \
        NOT_EDITED(r(1), 2, BYTES(0, 1), 2, BYTES(1), TEXT("k"), DPX_CONTENT);              \
        release();                                                                          \
    } while (0)
#define LIST(...) __VA_ARGS__

static void test_edit_refusals(void)
{
    const uint64_t top = UINT64_C(1) << 32;

    HOLD(BYTES(1, 1), S(1, 0), S(1, 1), TEXT("yx."));
    /* 1, of a fixed kind too, before 17. */
    NOT_EDITED(dpx_fixed(0, 2, DPX_LITTLE), 1, NONE, 0, NO, NONE, DPX_KIND);
    NOT_EDITED(dpx_fixed(1, 2, DPX_LITTLE), 2, BYTES(0, 1), 1, BYTES(1), TEXT("z"), DPX_KIND);
    NOT_EDITED(dpx_ragged(1, 5, DPX_START), 2, BYTES(0, 1), 1, BYTES(1), TEXT("z"), DPX_KIND);
    NOT_EDITED(r(5), 0, BYTES(0, 1), 1, BYTES(1), TEXT("z"), DPX_KIND);
    NOT_EDITED(r(top + 1), 2, BYTES(0, 1), 1, BYTES(1), TEXT("z"), DPX_KIND);
    /* 2, before 17: no count is cut to 32 bits. */
    NOT_EDITED(r(0), 0, NONE, 0, NO, NONE, DPX_SHAPE);
    NOT_EDITED(r(1), 65537, BYTES(0, 1), 1, BYTES(1), TEXT("z"), DPX_SHAPE);
    NOT_EDITED(r(1), top + 1, BYTES(1), 0, BYTES(1), TEXT("z"), DPX_SHAPE);
    NOT_EDITED(r(1), top + 2, BYTES(0, 1), 1, BYTES(1), TEXT("z"), DPX_SHAPE);
    NOT_EDITED(r(1), UINT64_MAX, BYTES(0, 1), 1, BYTES(1), TEXT("z"), DPX_SHAPE);
    /* 17, before every 4. */
    NOT_EDITED(r(0), 1, NONE, 0, NO, NONE, DPX_NO_MASKS);
    NOT_EDITED(r(0), 2, BYTES(1, 1), 0, NO, NONE, DPX_NO_MASKS);
    NOT_EDITED(r(0), 2, BYTES(2, 2), 2, BYTES(2), TEXT("zzzz"), DPX_NO_MASKS);
    /* 4 of the plane, also at another cell than the one that is set, and where that is none. */
    NOT_EDITED(r(1), 2, BYTES(1, 2), 0, BYTES(1), NONE, DPX_CONTENT);
    NOT_EDITED(r(1), 2, BYTES(255, 1), 1, BYTES(1), NONE, DPX_CONTENT);
    NOT_EDITED(r(1), 2, BYTES(1, 128), 1, BYTES(1), NONE, DPX_CONTENT);
    NOT_EDITED(r(1), 2, BYTES(1), 0, BYTES(1), NONE, DPX_CONTENT);
    NOT_EDITED(r(1), 2, BYTES(1), 2, BYTES(1), NONE, DPX_CONTENT);
    NOT_EDITED(r(1), 2, NONE, 0, BYTES(1), NONE, DPX_CONTENT);
    NOT_EDITED(r(1), 2, BYTES(1, 1, 1), 2, BYTES(1), NONE, DPX_CONTENT);
    AFTER(BYTES(1, 1), S(1, 0), S(1, 1), TEXT("yx."));
    release();

    HOLD(BYTES(1, 1), S(1, 0), S(1, 1), TEXT("yx."));
    /* 4 of the setting's masks, before 15 and 18. */
    NOT_EDITED(r(1), 2, BYTES(0, 1), 0, BYTES(2), NONE, DPX_CONTENT);
    NOT_EDITED(r(1), 2, BYTES(0, 1), 1, BYTES(255), NONE, DPX_CONTENT);
    NOT_EDITED(r(1), 2, BYTES(0, 1), 2, BYTES(2), NONE, DPX_CONTENT);
    NOT_EDITED(r(1), 2, BYTES(0, 1), 0, NO, NONE, DPX_CONTENT);
    NOT_EDITED(r(1), 2, BYTES(0, 1), 1, BYTES(1, 1), NONE, DPX_CONTENT);
    /* 15: no number is cut to 32 bits. */
    NOT_EDITED(r(1), 2, BYTES(0, 1), 2, BYTES(1), NONE, DPX_CELL);
    NOT_EDITED(r(1), 2, BYTES(0, 0), 2, BYTES(1), TEXT("zzzz"), DPX_CELL);
    NOT_EDITED(r(1), 2, BYTES(0, 1), top, BYTES(1), NONE, DPX_CELL);
    NOT_EDITED(r(1), 2, BYTES(0, 1), top + 1, BYTES(1), NONE, DPX_CELL);
    NOT_EDITED(r(1), 2, BYTES(0, 1), top + 2, BYTES(1), NONE, DPX_CELL);
    NOT_EDITED(r(1), 2, BYTES(1, 1), UINT64_MAX, BYTES(1), NONE, DPX_CELL);
    /* 18, whatever is to be set, and before 16. */
    NOT_EDITED(r(1), 2, BYTES(0, 1), 0, BYTES(1), TEXT("zzzz"), DPX_HIDDEN);
    NOT_EDITED(r(1), 2, BYTES(0, 1), 0, BYTES(1), TEXT("x"), DPX_HIDDEN);
    NOT_EDITED(r(1), 2, BYTES(0, 1), 0, BYTES(0), NONE, DPX_HIDDEN);
    NOT_EDITED(r(1), 2, BYTES(0, 0), 1, BYTES(1), TEXT("z"), DPX_HIDDEN);
    /* 16, which leaves the packing undone. */
    NOT_EDITED(r(1), 2, BYTES(0, 1), 1, BYTES(1), TEXT("zzz"), DPX_FULL);
    AFTER(BYTES(1, 1), S(1, 0), S(1, 1), TEXT("yx."));
    release();

    BROKEN(LIST(BYTES(2, 1)), LIST(S(0, 0)), LIST(S(0, 1)));
    BROKEN(LIST(BYTES(0, 1)), LIST(S(1, 0)), LIST(S(1, 1)));
    BROKEN(LIST(BYTES(1, 1)), LIST(S(0, 0)), LIST(S(1, 1)));
    BROKEN(LIST(BYTES(1, 1)), LIST(S(2, 0)), LIST(S(0, 1)));
    BROKEN(LIST(BYTES(1, 1)), LIST(S(2, 0)), LIST(S(2, 1)));
    BROKEN(LIST(BYTES(1, 1)), LIST(S(UINT64_MAX, 0)), LIST(S(1, 1)));
    BROKEN(LIST(BYTES(1, 1)), LIST(S(1)), LIST(S(1, 1)));
    BROKEN(LIST(BYTES(1, 1)), LIST(S(1, 0)), LIST(S(1, 1, 0)));
    BROKEN(LIST(BYTES(1)), LIST(S(1, 0)), LIST(S(1, 1)));
}

/* Every set of faults of an edit: the first one's refusal, and nothing changes. */
static void edit_faults(void)
{
    static const uint32_t order[] = {DPX_KIND,    DPX_SHAPE, DPX_NO_MASKS, DPX_CONTENT, DPX_CONTENT,
                                     DPX_CONTENT, DPX_SIZE,  DPX_CELL,     DPX_HIDDEN,  DPX_FULL};
    size_t faults;

    for (faults = 0; faults < 1024; faults++) {
        const uint64_t depth = faults & 4 ? 0 : 1, cells = faults & 2 ? 0 : 2, start = faults & 16 ? 0 : 1, cell = faults & 128 ? 2 : 1;
        const dpx_kind kind = faults & 1 ? dpx_fixed(depth, 8, DPX_LITTLE) : r(depth);
        const uint8_t rights[2] = {faults & 8 ? 2 : 1, faults & 256 ? 0 : 1}, mask[1] = {faults & 32 ? 2 : 1};
        const size_t store_len = faults & 64 ? OVER : 3, value_len = faults & 512 ? store_len : 1;
        HOLD(BYTES(1, 1), S(start, 0), S(1, 1), TEXT("yx."));
        check_answer(dpx_guest_edit(kind, cells, rights, 2, t.masks, 2, t.starts, 2, t.lengths, 2, faults & 64 ? over_store : t.store,
                                    store_len, cell, mask, 1, over, value_len),
                     first_of(order, faults), "dpx_guest_edit", __LINE__);
        if (faults != 0)
            AFTER(BYTES(1, 1), S(start, 0), S(1, 1), TEXT("yx."));
        else
            AFTER(BYTES(1, 1), S(1, 2), S(1, 1), BYTES('y', 'x', 7));
        release();
    }
}

/* ------------------------------------------------------------------------------------------------------- in a row */

/* The table as a guest reads it: dpx_table_read, and dpx_guest_read of what that gives. */
static void read_for_guest(dpx_kind kind, size_t cells, const uint8_t *rights)
{
    const uint64_t shape[1] = {cells};
    const size_t planes = kind.depth * cells;
    uint8_t *masks = block(planes), *values = block(t.store_len);
    uint64_t *offsets = block(8 * (cells + 1));
    size_t i, wrong = 0, shown = 0;

    ANSWERS(dpx_table_read(kind, cells, TABLE, masks, planes, values, t.store_len, offsets, cells + 1, t.named), DPX_OK);
    lend(planes, t.named[1], cells + 1);
    ANSWERS(dpx_guest_read(kind, shape, 1, rights, cells, masks, planes, values, t.named[1], offsets, cells + 1, OUT3), DPX_OK);
    for (i = 0; i < cells; i++) {
        const dpx_cell is = dpx_get_cell(kind, cells, out.masks, out.values, out.offsets, i);
        const dpx_cell own = dpx_table_cell(kind, cells, t.masks, t.starts, t.lengths, t.store, i);
        if (!rights[i]) {
            wrong += is.null_level != 1 || out.offsets[i] != out.offsets[i + 1];
            continue;
        }
        wrong += is.null_level != own.null_level || is.length != own.length;
        wrong += is.length != 0 && memcmp(is.value, own.value, is.length) != 0;
        shown += own.length;
    }
    CHECK(wrong == 0);
    CHECK(out.lengths[0] == planes && out.lengths[1] == shown && out.lengths[2] == cells + 1);
    check_kept(planes, shown, cells + 1, __LINE__);
}

/*
 * A table of a load, edited again and again by guests with any planes, in a store with little room left: cells are packed, and some edits are
 * refused. Another table, without any value, is edited alike: by the answers it is not told from the first, or one of them is 16.
 */
static void edit_load(dpx_kind kind, size_t cells, size_t edits)
{
    static uint8_t masks[DPX_MAX_DEPTH * DPX_MAX_CELLS], values[8 * DPX_MAX_CELLS], bare_masks[DPX_MAX_DEPTH * DPX_MAX_CELLS];
    static uint64_t offsets[DPX_MAX_CELLS + 1], bare_starts[DPX_MAX_CELLS], bare_lengths[DPX_MAX_CELLS];
    const uint64_t shape[1] = {cells};
    const size_t planes = kind.depth * cells;
    uint64_t named[3], foreseen[2];
    size_t i, j;

    ANSWERS(dpx_generate(kind, shape, 1, state, masks, planes, values, 8 * cells, offsets, cells + 1, named), DPX_OK);
    hold(NULL, planes, NULL, cells, NULL, cells, NULL, named[1] + 12);
    ANSWERS(dpx_table_make(kind, cells, masks, planes, values, named[1], offsets, cells + 1, TABLE, t.named), DPX_OK);
    memset(bare_masks, 0, planes);
    memset(bare_starts, 0, 8 * cells);
    memset(bare_lengths, 0, 8 * cells);
    for (i = 0; i < cells; i++)
        plane[i] = draw() % 3 != 0;
    for (i = 0; i < edits; i++) {
        const size_t cell = draw() % cells, length = draw() % LONGEST;
        uint8_t value[LONGEST], mask[DPX_MAX_DEPTH];
        uint32_t wanted = DPX_HIDDEN, bare;
        for (j = 0; j < LONGEST; j++)
            value[j] = draw() & 255;
        for (j = 0; j < DPX_MAX_DEPTH; j++)
            mask[j] = draw() % 16 != 0;
        if (plane[cell])
            wanted = dpx_table_preview(kind, cells, TABLE, cell, mask, kind.depth, value, length, foreseen);
        edit(kind, cells, plane, cells, cell, mask, kind.depth, value, length, wanted, __LINE__);
        bare = dpx_guest_edit(kind, cells, plane, cells, bare_masks, planes, bare_starts, cells, bare_lengths, cells, NONE, cell, mask,
                              kind.depth, value, length);
        CHECK(bare == wanted || bare == DPX_FULL || wanted == DPX_FULL);
        plane[draw() % cells] ^= 1;
    }
    read_for_guest(kind, cells, plane);
    release();
}

static void test_edits(void)
{
    uint64_t depth;
    memset(met, 0, sizeof met);
    moved = 0;
    for (depth = 1; depth <= DPX_MAX_DEPTH; depth++) {
        edit_load(r(depth), 1, 40);
        edit_load(r(depth), 2, 100);
        edit_load(dpx_packed(dpx_ragged(depth, 4, DPX_END)), 9, 300);
        edit_load(r(depth), 64, 100);
        edit_load(r(depth), 241, 100);
    }
    edit_load(r(1), 2048, 40);
    edit_load(r(2), 2049, 40);
    edit_load(r(4), DPX_MAX_CELLS, 12);
    CHECK(met[DPX_OK] > 100 && met[DPX_HIDDEN] > 100 && met[DPX_FULL] > 20 && moved > 100);
}

/* -------------------------------------------------------------------------------------------------------- limits */

/* 16,777,216 value bytes pass, and one more, which was too many once; what is too many is in long.c. As many of a store pass; one more is 5. */
static void test_limits(void)
{
    const uint64_t most = DPX_MAX_STORE, starts[2] = {1, 0}, lengths[2] = {1, 0}, shape[1] = {2};
    uint64_t last;

    for (last = most; last <= most + 1; last++) {
        lend(2, 1, 3);
        GIVES(dpx_guest_read(r(1), shape, 1, BYTES(1, 0), BYTES(1, 1), over, last, NUMBERS(0, 1, last), OUT3), BYTES(1, 0), BYTES(7),
              NUMBERS(0, 1, 1));
        lend(2, last - 1, 3);
        GIVES(dpx_guest_read(r(1), shape, 1, BYTES(0, 1), BYTES(1, 1), over, last, NUMBERS(0, 1, last), OUT3), BYTES(0, 1), over, last - 1,
              NUMBERS(0, 0, last - 1));
        release();
    }

    hold(BYTES(1, 0), starts, 2, lengths, 2, NULL, most);
    EDITS(r(1), 2, BYTES(0, 1), 1, BYTES(1), TEXT("z"));
    CHECK(t.starts[1] == 2 && t.store[1] == FILL && t.store[2] == 'z');
    NOT_EDITED(r(1), 2, BYTES(0, 1), 1, BYTES(1), LIST(over, most), DPX_FULL);
    EDITS(r(1), 2, BYTES(0, 1), 1, BYTES(1), LIST(over, most - 1));
    CHECK(t.starts[0] == 0 && t.starts[1] == 1 && t.store[0] == FILL && t.store[1] == 7 && t.store[most - 1] == 7);
    release();
    hold(BYTES(1, 0), starts, 2, lengths, 2, NULL, most + 1);
    NOT_EDITED(r(1), 2, BYTES(0, 1), 1, BYTES(1), TEXT("z"), DPX_SIZE);
    NOT_EDITED(r(1), 2, BYTES(0, 1), 0, BYTES(1), TEXT("z"), DPX_SIZE);
    NOT_EDITED(r(1), 2, BYTES(0, 1), 2, BYTES(1), TEXT("z"), DPX_SIZE);
    release();
}

int main(void)
{
    memset(over, 7, OVER);
    memset(over_store, 7, OVER);
    test_read();
    test_read_refusals();
    read_faults(1, over, 0);
    read_faults(0, over, 0);
    test_told();
    test_edit();
    test_edit_refusals();
    edit_faults();
    test_edits();
    test_limits();
    CHECK(all_are_7(over) && all_are_7(over_store));
    printf("guests from C: %lu checks, %lu failed\n", checks, failures);
    return failures == 0 ? 0 : 1;
}
