/*
 * Live tables from C: the lines of docs/SPEC.md, S10.56 to S10.62, every set of faults with the refusal that is due, what stays untouched, and random
 * tables that are moved step by step, with cuts between that are held against the cells as they were made.
 */
#include "faults.h"
#include "lent.h"

/* What a call is handed: inputs in blocks of just their size, the second list and the area between guards. `was_` is what these held before. */
static struct {
    const uint64_t *shape, *subsets, *old_lengths;
    const uint8_t *old;
    size_t shape_len, subsets_len, old_lengths_len, old_len, moved_lengths_len, area_len;
    uint64_t moved, *moved_lengths, named[2];
    uint8_t *area, *was_lengths, *was_area;
} t;

static void hold(const uint64_t *shape, size_t shape_len, const uint64_t *subsets, size_t subsets_len, const uint64_t *old_lengths,
                 size_t old_lengths_len, const uint8_t *old, size_t old_len, uint64_t moved, const uint64_t *moved_lengths,
                 size_t moved_lengths_len, const uint8_t *area, size_t area_len)
{
    t.shape = shape;
    t.shape_len = shape_len;
    t.subsets = subsets;
    t.subsets_len = subsets_len;
    t.old_lengths = old_lengths;
    t.old_lengths_len = old_lengths_len;
    t.old = old;
    t.old_len = old_len;
    t.moved = moved;
    t.moved_lengths = (uint64_t *)(void *)guarded(moved_lengths_len * 8);
    t.moved_lengths_len = moved_lengths_len;
    t.area = guarded(area_len);
    t.area_len = area_len;
    if (moved_lengths_len != 0)
        memcpy(t.moved_lengths, moved_lengths, moved_lengths_len * 8);
    if (area_len != 0)
        memcpy(t.area, area, area_len);
    t.was_lengths = in(moved_lengths, moved_lengths_len * 8);
    t.was_area = in(area, area_len);
}

static uint32_t step(void)
{
    memset(t.named, FILL, sizeof t.named);
    return dpx_migrate_step(t.shape, t.shape_len, t.subsets, t.subsets_len, t.old_lengths, t.old_lengths_len, t.old, t.old_len, t.moved,
                            t.moved_lengths, t.moved_lengths_len, t.area, t.area_len, t.named);
}

/* The guards of both lists are whole, and the lists are these. */
static void check_lists(const void *lengths, const void *area, int line)
{
    const uint8_t *block = (const uint8_t *)t.moved_lengths;
    check(filled(block - GUARD, GUARD) && filled(block + t.moved_lengths_len * 8, GUARD), "guards of the moved lengths", line);
    check(filled(t.area - GUARD, GUARD) && filled(t.area + t.area_len, GUARD), "guards of the area", line);
    check_is(t.moved_lengths, lengths, t.moved_lengths_len * 8, "moved lengths", line);
    check_is(t.area, area, t.area_len, "area", line);
}

static void check_refused(uint32_t answer, uint32_t wanted, int line)
{
    check_answer(answer, wanted, "dpx_migrate_step", line);
    check(t.named[0] == FILL64 && t.named[1] == FILL64, "lengths are kept", line);
    check_lists(t.was_lengths, t.was_area, line);
}

#define STEP_REFUSED(wanted) check_refused(step(), wanted, __LINE__)

/* A string is entered right behind those moved before, and nothing else changes; the table is then as the step leaves it. */
static void check_entered(const uint8_t *string, size_t length, int line)
{
    size_t i, at = 0;
    uint64_t *lengths = (uint64_t *)(void *)t.was_lengths;
    check_answer(step(), DPX_OK, "dpx_migrate_step", line);
    check(t.named[0] == length && t.named[1] == t.moved + 1, "bytes entered, and the number moved", line);
    for (i = 0; i < t.moved; i++)
        at += lengths[i];
    lengths[t.moved] = length;
    memcpy(t.was_area + at, string, length);
    check_lists(t.was_lengths, t.was_area, line);
    t.moved++;
}

static void check_none_left(int line)
{
    check_answer(step(), DPX_OK, "dpx_migrate_step", line);
    check(t.named[0] == 0 && t.named[1] == t.moved, "none is left", line);
    check_lists(t.was_lengths, t.was_area, line);
}

/* A cut into outputs of these lengths: refused, or these values and offsets. */
static void check_cut(const uint64_t *subset, size_t subset_len, size_t values_room, size_t offsets_room, uint32_t wanted,
                      const uint8_t *values, size_t values_len, const uint64_t *offsets, size_t offsets_len, int line)
{
    uint8_t *out_values = guarded(values_room), *offsets_block = guarded(offsets_room * 8);
    uint64_t *out_offsets = (uint64_t *)(void *)offsets_block, named[2] = {FILL64, FILL64};
    const int given = wanted == DPX_OK;
    check_answer(dpx_migrate_extract(t.shape, t.shape_len, t.subsets, t.subsets_len, subset, subset_len, t.old_lengths, t.old_lengths_len,
                                     t.old, t.old_len, t.moved, t.moved_lengths, t.moved_lengths_len, t.area, t.area_len, out_values,
                                     values_room, out_offsets, offsets_room, named),
                 wanted, "dpx_migrate_extract", line);
    check(kept(out_values, given ? values_len : 0, values_room), "values beyond their length are kept", line);
    check(kept(offsets_block, given ? offsets_len * 8 : 0, offsets_room * 8), "offsets beyond their length are kept", line);
    check(named[0] == (given ? values_len : FILL64) && named[1] == (given ? offsets_len : FILL64), "lengths of a cut", line);
    if (given) {
        check_is(out_values, values, values_len, "values", line);
        check_is(out_offsets, offsets, offsets_len * 8, "offsets", line);
    }
    check_lists(t.was_lengths, t.was_area, line);
}

/* The same in outputs that are just long enough, longer, one short each, and none. */
static void check_cuts(const uint64_t *subset, size_t subset_len, const uint8_t *values, size_t values_len, const uint64_t *offsets,
                       size_t offsets_len, int line)
{
    const size_t left = block_count;
    check_cut(subset, subset_len, values_len, offsets_len, DPX_OK, values, values_len, offsets, offsets_len, line);
    check_cut(subset, subset_len, values_len + 5, offsets_len + 2, DPX_OK, values, values_len, offsets, offsets_len, line);
    check_cut(subset, subset_len, values_len, offsets_len - 1, DPX_OUTPUT, NULL, 0, NULL, 0, line);
    check_cut(subset, subset_len, 0, 0, DPX_OUTPUT, NULL, 0, NULL, 0, line);
    if (values_len != 0)
        check_cut(subset, subset_len, values_len - 1, offsets_len, DPX_OUTPUT, NULL, 0, NULL, 0, line);
    release_to(left);
}

#define CUTS(...) check_cuts(__VA_ARGS__, __LINE__)
#define CUT_REFUSED(subset, wanted) check_cut(subset, 9, 9, wanted, NULL, 0, NULL, 0, __LINE__)

/* ---------------------------------------------------------------------------------------------------------- worked lines */

#define OLD_STRINGS 1, 0, 0, 0, 1, 0, 0, 0, 'A', 1, 0, 0, 0, 2, 0, 0, 0, 'B', 'C', 0xFF
#define UNREADABLE 1, 0, 0, 0, 1, 0, 0, 0, 'A', 2, 0, 0, 0, 2, 0, 0, 0, 'B', 'C', 0xFF
#define FIRST 16, 0, 0, 0, 0, 0, 0, 0, 0, 0, 0, 0, 0, 0, 0, 0, 1, 0, 0, 0, 0, 0, 0, 0, 'A'
#define SECOND 16, 0, 0, 0, 0, 0, 0, 0, 0, 0, 0, 0, 0, 0, 0, 0, 2, 0, 0, 0, 0, 0, 0, 0, 'B', 'C'

static void test_lines(void)
{
    static const uint8_t first[] = {FIRST}, second[] = {SECOND}, blank[52] = {0};
    static const uint8_t longer[51] = {FIRST};
    size_t i;

    /* 52 bytes hold both strings and a byte; the third step finds none left. Cuts are the same each time. */
    hold(NUMBERS(2), NUMBERS(1, 1, 0, 1), NUMBERS(9, 11), BYTES(OLD_STRINGS), 0, NUMBERS(7, 7), blank, 52);
    for (i = 0; i < 3; i++) {
        CUTS(NUMBERS(0, 2), TEXT("BCA"), NUMBERS(0, 2, 3));
        CUTS(NUMBERS(0, 1), TEXT("BC"), NUMBERS(0, 2));
        CUTS(NUMBERS(1, 1), TEXT("A"), NUMBERS(0, 1));
        CUTS(NUMBERS(1, 0), NONE, NUMBERS(0));
        CUT_REFUSED(NUMBERS(1, 2), DPX_SUBSET);
        if (i == 0)
            check_entered(first, sizeof first, __LINE__);
        if (i == 1)
            check_entered(second, sizeof second, __LINE__);
    }
    check_none_left(__LINE__);
    check(dpx_area_room(2, 2, 20) == 52, "the room of both chunks, and of the byte behind the last cell", __LINE__);
    check(dpx_area_room(1, 1, 9) == sizeof first, "the room of one chunk", __LINE__);
    release();

    /* One byte too short, and just long enough. */
    hold(NUMBERS(2), NUMBERS(1, 1, 0, 1), NUMBERS(9, 11), BYTES(OLD_STRINGS), 1, NUMBERS(25, 7), longer, 50);
    STEP_REFUSED(DPX_OUTPUT);
    hold(NUMBERS(2), NUMBERS(1, 1, 0, 1), NUMBERS(9, 11), BYTES(OLD_STRINGS), 1, NUMBERS(25, UINT64_MAX), longer, 51);
    check_entered(second, sizeof second, __LINE__);
    release();

    /* Every chunk is read, whatever is asked for. */
    hold(NUMBERS(2), NUMBERS(1, 1, 0, 1), NUMBERS(9, 11), BYTES(UNREADABLE), 0, NUMBERS(7, 7), blank, 52);
    CUT_REFUSED(NUMBERS(1, 1), DPX_COUNT);
    CUT_REFUSED(NUMBERS(0, 0), DPX_COUNT);
    STEP_REFUSED(DPX_COUNT);
    hold(NUMBERS(2), NUMBERS(1, 1, 0, 1), NUMBERS(8, 12), BYTES(OLD_STRINGS), 0, NUMBERS(7, 7), NONE);
    STEP_REFUSED(DPX_PAST_END);
    hold(NUMBERS(2), NUMBERS(1, 1, 0, 1), NUMBERS(9, 11), BYTES(OLD_STRINGS), 1, NUMBERS(26, 7), longer, 50);
    STEP_REFUSED(DPX_LENGTH);
    release();

    /* 4 before 12, and 12 before any chunk; no chunks. */
    hold(NUMBERS(2), NUMBERS(1, 1, 1, 1), NUMBERS(9, 11), BYTES(UNREADABLE), 0, NUMBERS(7), NONE);
    STEP_REFUSED(DPX_CONTENT);
    hold(NUMBERS(2), NUMBERS(1, 1, 1, 1), NUMBERS(9, 10), BYTES(UNREADABLE), 0, NUMBERS(7, 7), NONE);
    STEP_REFUSED(DPX_CONTENT);
    hold(NUMBERS(2), NUMBERS(1, 1, 1, 1), NUMBERS(9, 11), BYTES(UNREADABLE), 3, NUMBERS(0, 0), NONE);
    STEP_REFUSED(DPX_CONTENT);
    hold(NUMBERS(2), NUMBERS(1, 1, 1, 1), NUMBERS(9, 11), BYTES(UNREADABLE), 1, NUMBERS(25, 7), blank, 24);
    STEP_REFUSED(DPX_CONTENT);
    hold(NUMBERS(2), NUMBERS(1, 1, 1, 1), NUMBERS(9, 11), BYTES(UNREADABLE), 0, NUMBERS(7, 7), NONE);
    STEP_REFUSED(DPX_COVER);
    CUT_REFUSED(NUMBERS(0, 0), DPX_COVER);
    release();
    hold(NUMBERS(2), NONE, NONE, NONE, 0, NONE, NONE);
    STEP_REFUSED(DPX_COVER);
    hold(NUMBERS(2), NONE, NONE, NONE, 0, NUMBERS(0), NONE);
    STEP_REFUSED(DPX_CONTENT);
    /* Sums do not wrap. */
    hold(NUMBERS(2), NUMBERS(1, 1, 0, 1), NUMBERS(9 + (UINT64_C(1) << 63), 11 + (UINT64_C(1) << 63)), BYTES(OLD_STRINGS), 0, NUMBERS(7, 7), blank, 52);
    STEP_REFUSED(DPX_CONTENT);
    CUT_REFUSED(NUMBERS(0, 2), DPX_CONTENT);
    hold(NUMBERS(2), NUMBERS(1, 1, 0, 1), NUMBERS(9, 11), BYTES(OLD_STRINGS), 2, NUMBERS(UINT64_C(1) << 63, UINT64_C(1) << 63), blank, 52);
    STEP_REFUSED(DPX_CONTENT);
    CUT_REFUSED(NUMBERS(0, 2), DPX_CONTENT);
    release();
}

/* ---------------------------------------------------------------------------------------------------------- sets of faults */

enum {
    BAD_SHAPE = 1,
    PAST_SHAPE = 2,
    EMPTY_CHUNK = 4,
    ASKED_PAST = 8, /* of a cut alone */
    OLD_LIST = 16,
    MOVED_LIST = 32,
    OLD_SUM = 64,
    TOO_MANY = 128,
    PAST_AREA = 256,
    NOT_COVERED = 512,
    MOVED_CHUNK = 1024,
    SECOND_CHUNK = 2048,
    THIRD_CHUNK = 4096,
    NO_ROOM = 8192,
    ALL_FAULTS = 16383
};

/* Three chunks of one cell, "A", "" and "B", of which the first is moved. */
static void faulty(unsigned faults)
{
    static const uint32_t order[] = {DPX_SHAPE,   DPX_SUBSET,  DPX_SUBSET,  DPX_SUBSET, DPX_CONTENT, DPX_CONTENT,  DPX_CONTENT,
                                     DPX_CONTENT, DPX_CONTENT, DPX_COVER,   DPX_LENGTH, DPX_COUNT,   DPX_PAST_END, DPX_OUTPUT};
    uint64_t shape[1] = {3}, subsets[6] = {2, 1, 0, 1, 1, 1}, old_lengths[4] = {9, 8, 9, 0}, moved_lengths[4] = {25, 7, 7, 7};
    uint8_t old[27] = {1, 0, 0, 0, 1, 0, 0, 0, 'A', 1, 0, 0, 0, 0, 0, 0, 0, 1, 0, 0, 0, 1, 0, 0, 0, 'B', 0}, area[49] = {FIRST};
    const uint64_t asked[2] = {1, faults & ASKED_PAST ? 3 : 2};
    const size_t left = block_count, room = faults & NO_ROOM ? 1 : 2;
    size_t area_len = faults & PAST_AREA ? 24 : faults & NO_ROOM ? 48 : 49;
    if (faults & BAD_SHAPE)
        shape[0] = DPX_MAX_CELLS + 1;
    if (faults & PAST_SHAPE)
        subsets[1] = UINT64_MAX;
    if (faults & EMPTY_CHUNK)
        subsets[5] = 0;
    if (faults & NOT_COVERED)
        subsets[2] = 1;
    if (faults & MOVED_CHUNK)
        area[0] = 15;
    if (faults & SECOND_CHUNK)
        old[9] = 2;
    if (faults & THIRD_CHUNK)
        old[21] = 2;
    hold(in(shape, 8), 1, in(subsets, 48), 6, in(old_lengths, faults & OLD_LIST ? 32 : 24), faults & OLD_LIST ? 4 : 3,
         in(old, faults & OLD_SUM ? 27 : 26), faults & OLD_SUM ? 27 : 26, faults & TOO_MANY ? 4 : 1, moved_lengths,
         faults & MOVED_LIST ? 4 : 3, area, area_len);
    if ((faults & ASKED_PAST) == 0) {
        const uint32_t due = first_of(order, faults);
        if (due != DPX_OK)
            check_refused(step(), due, __LINE__);
        else
            check_answer(step(), DPX_OK, "dpx_migrate_step", __LINE__);
        if (due == DPX_OK)
            check(t.named[0] == 24 && t.named[1] == 2, "nothing is wrong", __LINE__);
        release_to(left);
        hold(in(shape, 8), 1, in(subsets, 48), 6, in(old_lengths, faults & OLD_LIST ? 32 : 24), faults & OLD_LIST ? 4 : 3,
             in(old, faults & OLD_SUM ? 27 : 26), faults & OLD_SUM ? 27 : 26, faults & TOO_MANY ? 4 : 1, moved_lengths,
             faults & MOVED_LIST ? 4 : 3, area, area_len);
    }
    check_cut(in(asked, 16), 2, room, 3, first_of(order, faults), (const uint8_t *)"BA", 2, (const uint64_t[]){0, 1, 2}, 3, __LINE__);
    release_to(left);
}

static void test_faults(void)
{
    unsigned faults;
    for (faults = 0; faults <= ALL_FAULTS; faults++)
        faulty(faults);
}

/* ---------------------------------------------------------------------------------------------------------- random tables */

enum { SIDE = 6, MOST = SIDE * SIDE, LONGEST = 9, TAIL = 5 };

static uint32_t state = 1;

static size_t draw(size_t below)
{
    state = state * 1664525u + 1013904223u;
    return (state >> 16) % below;
}

/* A table by its cells, and the chunks that it is split into: first row, first column, rows, columns. */
static struct {
    uint64_t shape[2], subsets[MOST][4], old_lengths[MOST], moved_lengths[MOST];
    uint8_t cells[MOST][LONGEST], old[MOST * (8 + LONGEST + TAIL)], area[MOST * (24 + LONGEST) + TAIL];
    uint8_t strings[MOST][16 + MOST * (8 + LONGEST)];
    size_t lengths[MOST], string_lengths[MOST], chunks, old_len, tails;
} m;

static void put_number(uint8_t *to, uint64_t number, size_t width)
{
    for (; width > 0; width--, number >>= 8)
        *to++ = (uint8_t)number;
}

/* The cells of a subset in row order: values and offsets. How many cells there are. */
static size_t cells_of(const uint64_t subset[4], uint8_t *values, uint64_t *offsets)
{
    uint64_t row, column;
    size_t count = 0;
    offsets[0] = 0;
    for (row = subset[0]; row < subset[0] + subset[2]; row++)
        for (column = subset[1]; column < subset[1] + subset[3]; column++) {
            const size_t cell = (size_t)(row * m.shape[1] + column);
            memcpy(values + offsets[count], m.cells[cell], m.lengths[cell]);
            offsets[count + 1] = offsets[count] + m.lengths[cell];
            count++;
        }
    return count;
}

static void make(int tails)
{
    size_t i, j, k, cuts;
    memset(&m, 0, sizeof m);
    m.shape[0] = 1 + draw(SIDE);
    m.shape[1] = 1 + draw(SIDE);
    for (i = 0; i < m.shape[0] * m.shape[1]; i++) {
        m.lengths[i] = draw(3) == 0 ? 0 : draw(LONGEST + 1);
        for (j = 0; j < m.lengths[i]; j++)
            m.cells[i][j] = (uint8_t)draw(256);
    }
    memcpy(m.subsets[0] + 2, m.shape, sizeof m.shape);
    m.chunks = 1;
    for (cuts = draw(4 * MOST); cuts > 0; cuts--) {
        uint64_t *one = m.subsets[draw(m.chunks)], *other = m.subsets[m.chunks];
        const size_t side = draw(2);
        if (one[2 + side] < 2)
            continue;
        memcpy(other, one, sizeof m.subsets[0]);
        one[2 + side] = 1 + draw((size_t)one[2 + side] - 1);
        other[side] += one[2 + side];
        other[2 + side] -= one[2 + side];
        m.chunks++;
    }
    for (i = m.chunks - 1; i > 0; i--) {
        uint64_t kept_subset[4];
        j = draw(i + 1);
        memcpy(kept_subset, m.subsets[i], sizeof kept_subset);
        memcpy(m.subsets[i], m.subsets[j], sizeof kept_subset);
        memcpy(m.subsets[j], kept_subset, sizeof kept_subset);
    }
    for (i = 0; i < m.chunks; i++) {
        uint8_t values[MOST * LONGEST], *old = m.old + m.old_len, *string = m.strings[i];
        uint64_t offsets[MOST + 1];
        const size_t count = cells_of(m.subsets[i], values, offsets), tail = tails ? draw(TAIL + 1) : 0;
        put_number(old, count, 4);
        old += 4;
        put_number(string, 8 * (count + 1), 8);
        for (k = 0; k <= count; k++)
            put_number(string + 8 + 8 * k, offsets[k], 8);
        memcpy(string + 16 + 8 * count, values, offsets[count]);
        m.string_lengths[i] = 16 + 8 * count + offsets[count];
        for (k = 0; k < count; k++) {
            const size_t length = (size_t)(offsets[k + 1] - offsets[k]);
            put_number(old, length, 4);
            memcpy(old + 4, values + offsets[k], length);
            old += 4 + length;
        }
        memset(old, 0xEE, tail);
        m.old_lengths[i] = (uint64_t)(old - m.old) + tail - m.old_len;
        m.old_len += m.old_lengths[i];
        m.tails += tail;
        m.moved_lengths[i] = UINT64_MAX;
    }
    for (i = 0; i < sizeof m.area; i++)
        m.area[i] = (uint8_t)draw(256);
}

/* What was moved so far, handed over with an area of this length. */
static void hold_moved(size_t moved, size_t area_len)
{
    hold(in(m.shape, sizeof m.shape), 2, in(m.subsets, m.chunks * sizeof m.subsets[0]), 4 * m.chunks, in(m.old_lengths, 8 * m.chunks),
         m.chunks, in(m.old, m.old_len), m.old_len, moved, m.moved_lengths, m.chunks, m.area, area_len);
}

static void check_subset(const uint64_t subset[4])
{
    uint8_t values[MOST * LONGEST];
    uint64_t offsets[MOST + 1];
    const size_t count = cells_of(subset, values, offsets), left = block_count;
    check_cuts(in(subset, 32), 4, values, (size_t)offsets[count], offsets, count + 1, __LINE__);
    release_to(left);
}

/* Of every subset where the shape is small, else of the whole and some. */
static void check_all_cuts(void)
{
    uint64_t s[4] = {0, 0, m.shape[0], m.shape[1]};
    size_t i;
    check_subset(s);
    if (m.shape[0] * m.shape[1] <= 4)
        for (s[0] = 0; s[0] <= m.shape[0]; s[0]++)
            for (s[1] = 0; s[1] <= m.shape[1]; s[1]++)
                for (s[2] = 0; s[0] + s[2] <= m.shape[0]; s[2]++)
                    for (s[3] = 0; s[1] + s[3] <= m.shape[1]; s[3]++)
                        check_subset(s);
    else
        for (i = 0; i < 2; i++) {
            s[0] = draw((size_t)m.shape[0] + 1);
            s[1] = draw((size_t)m.shape[1] + 1);
            s[2] = draw((size_t)(m.shape[0] - s[0]) + 1);
            s[3] = draw((size_t)(m.shape[1] - s[1]) + 1);
            check_subset(s);
        }
}

/* The chunks read, each by the call for its string, and all of them merged: the whole table. */
static void check_merged(size_t moved)
{
    static uint8_t values[MOST * LONGEST], wanted[MOST * LONGEST], out_values[MOST * LONGEST];
    static uint64_t offsets[2 * MOST], wanted_offsets[MOST + 1], out_offsets[MOST + 1];
    const dpx_kind kind = dpx_ragged(0, 8, DPX_START);
    uint64_t named[3], whole[4] = {0, 0, m.shape[0], m.shape[1]};
    size_t i, old_at = 0, new_at = 0, value_at = 0, offset_at = 0;
    const size_t count = cells_of(whole, wanted, wanted_offsets), bytes = (size_t)wanted_offsets[count];
    for (i = 0; i < m.chunks; i++) {
        const size_t cells = (size_t)(m.subsets[i][2] * m.subsets[i][3]);
        if (i < moved) {
            ANSWERS(dpx_decode(kind, m.subsets[i] + 2, 2, t.area + new_at, t.moved_lengths[i], NULL, 0, values + value_at,
                               sizeof values - value_at, offsets + offset_at, cells + 1, named),
                    DPX_OK);
            new_at += t.moved_lengths[i];
        } else {
            ANSWERS(dpx_decode_interleaved(cells, m.old + old_at, m.old_lengths[i], values + value_at, sizeof values - value_at,
                                           offsets + offset_at, cells + 1, named + 1),
                    DPX_OK);
        }
        old_at += m.old_lengths[i];
        value_at += named[1];
        offset_at += named[2];
    }
    ANSWERS(dpx_merge(kind, m.shape, 2, m.subsets[0], 4 * m.chunks, NULL, 0, values, value_at, offsets, offset_at, NULL, 0, out_values,
                      bytes, out_offsets, count + 1, named),
            DPX_OK);
    CHECK(named[1] == bytes && named[2] == count + 1);
    check_is(out_values, wanted, bytes, "values of the merge", __LINE__);
    check_is(out_offsets, wanted_offsets, 8 * (count + 1), "offsets of the merge", __LINE__);
}

/* Each step in an area of its own: first one byte too short, then with just the room or more. */
static void test_tables(void)
{
    size_t table, i;
    for (table = 0; table < 150; table++) {
        size_t entered = 0;
        make(table % 2 == 1);
        for (i = 0; i < m.chunks; i++) {
            const size_t length = m.string_lengths[i];
            hold_moved(i, entered + length - 1 - draw(length));
            STEP_REFUSED(DPX_OUTPUT);
            release();
            hold_moved(i, entered + length - 1);
            STEP_REFUSED(DPX_OUTPUT);
            check_all_cuts();
            release();
            hold_moved(i, entered + length + draw(TAIL));
            check_merged(i);
            check_entered(m.strings[i], length, __LINE__);
            m.moved_lengths[i] = length;
            memcpy(m.area, t.area, t.area_len);
            entered += length;
            release();
        }
        hold_moved(m.chunks, entered);
        check_all_cuts();
        check_merged(m.chunks);
        check_none_left(__LINE__);
        CHECK(dpx_area_room(m.chunks, m.shape[0] * m.shape[1], m.old_len) == entered + m.tails);
        release();
    }
}

int main(void)
{
    test_lines();
    test_faults();
    test_tables();
    printf("live tables: %lu checks, %lu failed\n", checks, failures);
    return failures == 0 ? 0 : 1;
}
