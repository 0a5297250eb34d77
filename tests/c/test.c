/* Tests of the C interface: the lines of docs/SPEC.md, S10, every refusal of every call, and what stays untouched. */
#include "outputs.h"

static void check_values(const uint8_t *values, size_t values_len, const uint64_t *offsets, size_t offsets_len, int line)
{
    check(out.lengths[0] == values_len, "length of the values", line);
    check(out.lengths[1] == offsets_len, "length of the offsets", line);
    check(out.lengths[2] == FILL64, "only two lengths are written", line);
    check_kept(0, values_len, offsets_len, line);
    check_is(out.values, values, values_len, "values", line);
    check_is(out.offsets, offsets, offsets_len * 8, "offsets", line);
}

static void check_stored(const uint8_t *stored, size_t stored_len, int line)
{
    check(out.lengths[0] == stored_len, "stored length", line);
    check(out.lengths[1] == FILL64 && out.lengths[2] == FILL64, "only one length is written", line);
    check_kept(0, stored_len, 0, line);
    check_is(out.values, stored, stored_len, "stored bytes", line);
}

#define GIVES_VALUES(call, ...)                 \
    do {                                        \
        ANSWERS(call, DPX_OK);                  \
        check_values(__VA_ARGS__, __LINE__);    \
    } while (0)
#define STORES(call, ...)                       \
    do {                                        \
        ANSWERS(call, DPX_OK);                  \
        check_stored(__VA_ARGS__, __LINE__);    \
    } while (0)

/* The lent outputs as arguments, where a call takes fewer than three. */
#define OUT2 out.values, out.values_len, out.offsets, out.offsets_len, out.lengths
#define OUT1 out.values, out.values_len, out.lengths
#define OUT_CELLS out.offsets, out.offsets_len, out.lengths

#define LE8(n) (n), 0, 0, 0, 0, 0, 0, 0
#define LE4(n) (n), 0, 0, 0
#define FF8 255, 255, 255, 255, 255, 255, 255, 255

static dpx_kind kind_of(uint64_t depth, uint64_t form, uint64_t size, uint64_t order, uint64_t mask)
{
    dpx_kind kind;
    kind.depth = depth;
    kind.form = form;
    kind.size = size;
    kind.order = order;
    kind.mask = mask;
    return kind;
}

/* ------------------------------------------------------------------------------------------- the kind as numbers */

static void test_kind(void)
{
    const dpx_kind f = dpx_fixed(3, 16, DPX_BIG), r = dpx_ragged(2, 8, DPX_END);
    const dpx_kind bad[] = {
        kind_of(5, DPX_FIXED, 1, 0, 0),   kind_of(UINT64_MAX, DPX_FIXED, 1, 0, 0), kind_of(0, 2, 1, 0, 0),
        kind_of(0, DPX_FIXED, 0, 0, 0),   kind_of(0, DPX_FIXED, 65, 0, 0),         kind_of(0, DPX_FIXED, 257, 0, 0),
        kind_of(0, DPX_FIXED, 1, 2, 0),   kind_of(0, DPX_FIXED, 1, 0, 2),          kind_of(0, DPX_RAGGED, 0, 0, 0),
        kind_of(0, DPX_RAGGED, 5, 0, 0),  kind_of(0, DPX_RAGGED, 16, 0, 0),        kind_of(0, DPX_RAGGED, 4, 2, 0),
        kind_of(0, DPX_RAGGED, 4, 0, 2),  kind_of(5, DPX_RAGGED, 4, 0, 0),         kind_of(256, DPX_RAGGED, 4, 0, 0),
        kind_of(0, UINT64_C(1) << 32, 1, 0, 0), kind_of(1, DPX_FIXED, 1, 0, UINT64_MAX),
    };
    size_t i;

    CHECK(sizeof(dpx_kind) == 40);
    CHECK(f.depth == 3 && f.form == 0 && f.size == 16 && f.order == 1 && f.mask == 0);
    CHECK(r.depth == 2 && r.form == 1 && r.size == 8 && r.order == 1 && r.mask == 0);

    /* 1 comes before all else: the shape is wrong too, and nothing is lent. */
    for (i = 0; i < sizeof bad / sizeof bad[0]; i++) {
        lend(0, 0, 0);
        REFUSED(dpx_encode(bad[i], NUMBERS(0), NONE, NONE, NONE, OUT1), DPX_KIND);
        REFUSED(dpx_decode(bad[i], NUMBERS(0), NONE, OUT3), DPX_KIND);
        REFUSED(dpx_encode_interleaved(bad[i], NUMBERS(0), NONE, NONE, NONE, OUT1), DPX_KIND);
        REFUSED(dpx_generate(bad[i], NUMBERS(0), 0, OUT3), DPX_KIND);
        REFUSED(dpx_extract(bad[i], NUMBERS(0), NONE, NONE, NONE, NONE, OUT3), DPX_KIND);
        REFUSED(dpx_merge(bad[i], NUMBERS(0), NONE, NONE, NONE, NONE, OUT3), DPX_KIND);
        REFUSED(dpx_guest_read(bad[i], NUMBERS(0), NONE, NONE, NONE, NONE, OUT3), DPX_KIND);
        release();
    }
    lend(0, 0, 0);
    REFUSED(dpx_partial_decode(5, DPX_START, NUMBERS(0), NONE, NONE, OUT2), DPX_KIND);
    REFUSED(dpx_partial_decode(0, DPX_START, NUMBERS(0), NONE, NONE, OUT2), DPX_KIND);
    REFUSED(dpx_partial_decode(4, 2, NUMBERS(0), NONE, NONE, OUT2), DPX_KIND);
    REFUSED(dpx_partial_decode(UINT64_MAX, UINT64_MAX, NUMBERS(0), NONE, NONE, OUT2), DPX_KIND);
    release();
}

/* ---------------------------------------------------------------------------------------------- shapes, all calls */

static void refuse_shape(const uint64_t *shape, size_t sides)
{
    lend(0, 0, 0);
    REFUSED(dpx_encode(dpx_fixed(0, 1, DPX_LITTLE), shape, sides, NONE, NONE, NONE, OUT1), DPX_SHAPE);
    REFUSED(dpx_decode(dpx_fixed(0, 1, DPX_LITTLE), shape, sides, NONE, OUT3), DPX_SHAPE);
    REFUSED(dpx_encode_interleaved(dpx_ragged(0, 4, DPX_START), shape, sides, NONE, NONE, NONE, OUT1), DPX_SHAPE);
    REFUSED(dpx_generate(dpx_ragged(1, 4, DPX_START), shape, sides, 0, OUT3), DPX_SHAPE);
    REFUSED(dpx_extract(dpx_fixed(0, 1, DPX_LITTLE), shape, sides, NONE, NONE, NONE, NONE, OUT3), DPX_SHAPE);
    REFUSED(dpx_merge(dpx_fixed(0, 1, DPX_LITTLE), shape, sides, NONE, NONE, NONE, NONE, OUT3), DPX_SHAPE);
    REFUSED(dpx_guest_read(dpx_fixed(0, 1, DPX_LITTLE), shape, sides, NONE, NONE, NONE, NONE, OUT3), DPX_SHAPE);
    REFUSED(dpx_partial_decode(4, DPX_START, shape, sides, NONE, NONE, OUT2), DPX_SHAPE);
    REFUSED(dpx_subset_cells(shape, sides, NONE, OUT_CELLS), DPX_SHAPE);
    release();
}

static void test_shape(void)
{
    refuse_shape(NONE);
    refuse_shape(NUMBERS(0));
    refuse_shape(NUMBERS(2, 0));
    refuse_shape(NUMBERS(65537));
    refuse_shape(NUMBERS(65536, 2));
    refuse_shape(NUMBERS(256, 257));
    refuse_shape(NUMBERS(1, 1, 1, 1, 1));
    refuse_shape(NUMBERS(UINT64_MAX));
    refuse_shape(NUMBERS((UINT64_C(1) << 32) + 1));
    refuse_shape(NUMBERS(UINT64_C(1) << 32, UINT64_C(1) << 32));
    refuse_shape(NUMBERS(65536, UINT64_C(1) << 48));
    refuse_shape(NUMBERS(0, UINT64_C(1) << 63, 4));

    lend(0, 0, 0);
    REFUSED(dpx_decode_interleaved(65537, NONE, OUT2), DPX_SHAPE);
    REFUSED(dpx_decode_interleaved(UINT64_MAX, NONE, OUT2), DPX_SHAPE);
    release();
}

/* ------------------------------------------------------------------------------------------------------- encode */

static void test_encode(void)
{
    const dpx_kind f1 = dpx_fixed(0, 1, DPX_LITTLE), r4 = dpx_ragged(0, 4, DPX_START);

    /* Depth 1, size 2: the middle cell is null. */
    lend(0, 40, 0);
    STORES(dpx_encode(dpx_fixed(1, 2, DPX_LITTLE), NUMBERS(3), BYTES(1, 0, 1), BYTES(0x0A, 0x0B, 0x0C, 0x0D, 0x0E, 0x0F), NONE, OUT1),
           BYTES(LE8(3), LE8(4), 1, 0, 1, 0x0A, 0x0B, 0x0E, 0x0F));
    /* Exactly enough room, and one byte less. */
    lend(0, 23, 0);
    STORES(dpx_encode(dpx_fixed(1, 2, DPX_LITTLE), NUMBERS(3), BYTES(1, 0, 1), BYTES(0x0A, 0x0B, 0x0C, 0x0D, 0x0E, 0x0F), NONE, OUT1),
           BYTES(LE8(3), LE8(4), 1, 0, 1, 0x0A, 0x0B, 0x0E, 0x0F));
    lend(0, 22, 0);
    REFUSED(dpx_encode(dpx_fixed(1, 2, DPX_LITTLE), NUMBERS(3), BYTES(1, 0, 1), BYTES(0x0A, 0x0B, 0x0C, 0x0D, 0x0E, 0x0F), NONE, OUT1),
            DPX_OUTPUT);
    /* Nothing set. */
    lend(0, 19, 0);
    STORES(dpx_encode(dpx_fixed(1, 2, DPX_LITTLE), NUMBERS(3), BYTES(0, 0, 0), BYTES(0x0A, 0x0B, 0x0C, 0x0D, 0x0E, 0x0F), NONE, OUT1),
           BYTES(LE8(3), LE8(0), 0, 0, 0));
    /* Big order turns the value only. */
    lend(0, 40, 0);
    STORES(dpx_encode(dpx_fixed(1, 2, DPX_BIG), NUMBERS(1), BYTES(1), BYTES(0x0A, 0x0B), NONE, OUT1), BYTES(LE8(1), LE8(2), 1, 0x0B, 0x0A));
    release();

    /* Depth 2: no inner mask for a cell that the outer mask hides. */
    lend(0, 38, 0);
    STORES(dpx_encode(dpx_fixed(2, 1, DPX_LITTLE), NUMBERS(3), BYTES(1, 1, 0, 1, 0, 1), BYTES(7, 8, 9), NONE, OUT1),
           BYTES(LE8(3), LE8(19), 1, 1, 0, LE8(2), LE8(1), 1, 0, 7));
    release();

    /* Ragged "AB", "". */
    lend(0, 22, 0);
    STORES(dpx_encode(dpx_ragged(0, 4, DPX_END), NUMBERS(2), NONE, TEXT("AB"), NUMBERS(0, 2, 2), OUT1),
           BYTES('A', 'B', LE4(0), LE4(2), LE4(2), LE8(12)));
    lend(0, 34, 0);
    STORES(dpx_encode(dpx_ragged(0, 8, DPX_START), NUMBERS(2), NONE, TEXT("AB"), NUMBERS(0, 2, 2), OUT1),
           BYTES(LE8(24), LE8(0), LE8(2), LE8(2), 'A', 'B'));
    /* Set and empty is not null. */
    lend(0, 40, 0);
    STORES(dpx_encode(dpx_ragged(1, 4, DPX_START), NUMBERS(1), BYTES(1), NONE, NUMBERS(0, 0), OUT1),
           BYTES(LE8(1), LE8(16), 1, LE8(8), LE4(0), LE4(0)));
    lend(0, 40, 0);
    STORES(dpx_encode(dpx_ragged(1, 4, DPX_START), NUMBERS(1), BYTES(0), NONE, NUMBERS(0, 0), OUT1), BYTES(LE8(1), LE8(0), 0));
    release();

    /* 4, the output being too short as well. */
    lend(0, 0, 0);
    REFUSED(dpx_encode(f1, NUMBERS(1), BYTES(1), TEXT("a"), NONE, OUT1), DPX_CONTENT);
    REFUSED(dpx_encode(f1, NUMBERS(1), NONE, NONE, NONE, OUT1), DPX_CONTENT);
    REFUSED(dpx_encode(f1, NUMBERS(1), NONE, TEXT("ab"), NONE, OUT1), DPX_CONTENT);
    REFUSED(dpx_encode(f1, NUMBERS(1), NONE, TEXT("a"), NUMBERS(0, 1), OUT1), DPX_CONTENT);
    REFUSED(dpx_encode(dpx_fixed(2, 1, DPX_LITTLE), NUMBERS(2), BYTES(1, 1, 1), TEXT("ab"), NONE, OUT1), DPX_CONTENT);
    REFUSED(dpx_encode(r4, NUMBERS(1), NONE, NONE, NONE, OUT1), DPX_CONTENT);
    REFUSED(dpx_encode(r4, NUMBERS(1), NONE, TEXT("x"), NUMBERS(0, 0), OUT1), DPX_CONTENT);
    REFUSED(dpx_encode(r4, NUMBERS(1), NONE, TEXT("x"), NUMBERS(0, 2), OUT1), DPX_CONTENT);
    REFUSED(dpx_encode(r4, NUMBERS(1), NONE, TEXT("x"), NUMBERS(0, 1, 1), OUT1), DPX_CONTENT);
    REFUSED(dpx_encode(r4, NUMBERS(2), NONE, TEXT("ab"), NUMBERS(0, 3, 2), OUT1), DPX_CONTENT);
    REFUSED(dpx_encode(r4, NUMBERS(2), NONE, TEXT("ab"), NUMBERS(1, 0, 2), OUT1), DPX_CONTENT);
    REFUSED(dpx_encode(dpx_ragged(0, 8, DPX_START), NUMBERS(1), NONE, NONE, NUMBERS(0, DPX_MAX_VALUE_BYTES + 1), OUT1), DPX_CONTENT);
    REFUSED(dpx_encode(f1, NUMBERS(1), NONE, TEXT("a"), NONE, OUT1), DPX_OUTPUT);
    release();
}

/* ------------------------------------------------------------------------------------------------------- decode */

static void test_decode(void)
{
    const dpx_kind f1 = dpx_fixed(1, 1, DPX_LITTLE), r4 = dpx_ragged(0, 4, DPX_START), r4e = dpx_ragged(0, 4, DPX_END);

    lend(4, 8, 2);
    GIVES(dpx_decode(dpx_fixed(1, 2, DPX_LITTLE), NUMBERS(3), BYTES(LE8(3), LE8(4), 1, 0, 1, 0x0A, 0x0B, 0x0E, 0x0F), OUT3),
          BYTES(1, 0, 1), BYTES(0x0A, 0x0B, 0, 0, 0x0E, 0x0F), NONE);
    /* With nothing set there is no content. */
    lend(4, 8, 2);
    GIVES(dpx_decode(dpx_fixed(1, 2, DPX_LITTLE), NUMBERS(3), BYTES(LE8(3), LE8(0), 0, 0, 0), OUT3), BYTES(0, 0, 0),
          BYTES(0, 0, 0, 0, 0, 0), NONE);
    lend(8, 8, 0);
    GIVES(dpx_decode(dpx_fixed(2, 1, DPX_LITTLE), NUMBERS(3), BYTES(LE8(3), LE8(19), 1, 1, 0, LE8(2), LE8(1), 1, 0, 7), OUT3),
          BYTES(1, 1, 0, 1, 0, 0), BYTES(7, 0, 0), NONE);
    lend(0, 4, 4);
    GIVES(dpx_decode(r4e, NUMBERS(2), BYTES('A', 'B', LE4(0), LE4(2), LE4(2), LE8(12)), OUT3), NONE, TEXT("AB"), NUMBERS(0, 2, 2));
    lend(2, 4, 4);
    GIVES(dpx_decode(dpx_ragged(0, 8, DPX_START), NUMBERS(2), BYTES(LE8(24), LE8(0), LE8(2), LE8(2), 'A', 'B'), OUT3), NONE, TEXT("AB"),
          NUMBERS(0, 2, 2));
    release();
    /* A set cell of no bytes, and a null. */
    lend(2, 4, 4);
    GIVES(dpx_decode(dpx_ragged(1, 4, DPX_START), NUMBERS(2), BYTES(LE8(2), LE8(16), 1, 0, LE8(8), LE4(0), LE4(0)), OUT3), BYTES(1, 0),
          NONE, NUMBERS(0, 0, 0));
    /* Big order. */
    lend(0, 2, 0);
    GIVES(dpx_decode(dpx_fixed(0, 2, DPX_BIG), NUMBERS(1), BYTES(1, 2), OUT3), NONE, BYTES(2, 1), NONE);
    /* Outputs that the kind does not use stay. */
    lend(5, 1, 5);
    GIVES(dpx_decode(dpx_fixed(0, 1, DPX_LITTLE), NUMBERS(1), BYTES(7), OUT3), NONE, BYTES(7), NONE);
    release();

    /* 7 and 8 of a frame; every output is too short as well. */
    lend(0, 0, 0);
    REFUSED(dpx_decode(f1, NUMBERS(1), NONE, OUT3), DPX_SHORT);
    REFUSED(dpx_decode(f1, NUMBERS(1), BYTES(1, 2, 3), OUT3), DPX_SHORT);
    REFUSED(dpx_decode(f1, NUMBERS(1), BYTES(LE8(1), 0, 0, 0, 0, 0, 0, 0), OUT3), DPX_SHORT);
    REFUSED(dpx_decode(f1, NUMBERS(1), BYTES(LE8(1), FF8), OUT3), DPX_LENGTH);
    REFUSED(dpx_decode(f1, NUMBERS(1), BYTES(0xF1, 255, 255, 255, 255, 255, 255, 255, LE8(0)), OUT3), DPX_LENGTH);
    REFUSED(dpx_decode(f1, NUMBERS(1), BYTES(LE8(1), LE8(5), 0), OUT3), DPX_LENGTH);
    REFUSED(dpx_decode(f1, NUMBERS(1), BYTES(LE8(2), LE8(0), 1, 1), OUT3), DPX_LENGTH);
    REFUSED(dpx_decode(f1, NUMBERS(1), BYTES(LE8(1), LE8(1), 1, 7, 7), OUT3), DPX_LENGTH);
    /* Cells set and no content. */
    REFUSED(dpx_decode(f1, NUMBERS(1), BYTES(LE8(1), LE8(0), 1), OUT3), DPX_LENGTH);
    REFUSED(dpx_decode(dpx_ragged(1, 4, DPX_START), NUMBERS(1), BYTES(LE8(1), LE8(0), 1), OUT3), DPX_SHORT);
    REFUSED(dpx_decode(dpx_fixed(2, 1, DPX_LITTLE), NUMBERS(1), BYTES(LE8(1), LE8(0), 1), OUT3), DPX_SHORT);
    /* The inner mask counts the cells set above, not the shape's. */
    REFUSED(dpx_decode(dpx_fixed(2, 1, DPX_LITTLE), NUMBERS(2), BYTES(LE8(2), LE8(18), 1, 0, LE8(2), LE8(0), 0, 0), OUT3), DPX_LENGTH);
    release();

    /* Plain values. */
    lend(0, 0, 0);
    REFUSED(dpx_decode(dpx_fixed(0, 2, DPX_LITTLE), NUMBERS(1), NONE, OUT3), DPX_LENGTH);
    REFUSED(dpx_decode(dpx_fixed(0, 2, DPX_LITTLE), NUMBERS(1), BYTES(1, 2, 3), OUT3), DPX_LENGTH);
    /* Ragged values. */
    REFUSED(dpx_decode(r4, NUMBERS(1), NONE, OUT3), DPX_SHORT);
    REFUSED(dpx_decode(r4e, NUMBERS(1), BYTES(1, 2, 3, 4, 5, 6, 7), OUT3), DPX_SHORT);
    REFUSED(dpx_decode(r4, NUMBERS(1), BYTES(FF8), OUT3), DPX_LENGTH);
    REFUSED(dpx_decode(r4e, NUMBERS(1), BYTES(FF8), OUT3), DPX_LENGTH);
    REFUSED(dpx_decode(r4, NUMBERS(1), BYTES(LE8(12), LE4(0), LE4(0), LE4(0)), OUT3), DPX_LENGTH);
    REFUSED(dpx_decode(r4, NUMBERS(1), BYTES(LE8(8), LE4(0), LE4(2), 'a'), OUT3), DPX_LENGTH);
    REFUSED(dpx_decode(r4, NUMBERS(1), BYTES(LE8(8), LE4(2), LE4(1), 'a', 'b'), OUT3), DPX_LENGTH);
    REFUSED(dpx_decode(r4, NUMBERS(1), BYTES(LE8(8), LE4(2), LE4(1), 'a'), OUT3), DPX_FALLING);
    REFUSED(dpx_decode(r4, NUMBERS(2), BYTES(LE8(12), LE4(0), LE4(2), LE4(1), 'a'), OUT3), DPX_FALLING);
    REFUSED(dpx_decode(dpx_ragged(0, 8, DPX_START), NUMBERS(1), BYTES(LE8(16), LE8(0), 0, 0, 0, 0, 0, 1, 0, 0), OUT3), DPX_LENGTH);
    release();

    /* 6 is last, and for each output. */
    lend(0, 1, 0);
    REFUSED(dpx_decode(f1, NUMBERS(1), BYTES(LE8(1), LE8(1), 1, 7), OUT3), DPX_OUTPUT);
    lend(1, 0, 0);
    REFUSED(dpx_decode(f1, NUMBERS(1), BYTES(LE8(1), LE8(1), 1, 7), OUT3), DPX_OUTPUT);
    lend(0, 2, 2);
    REFUSED(dpx_decode(r4e, NUMBERS(2), BYTES('A', 'B', LE4(0), LE4(2), LE4(2), LE8(12)), OUT3), DPX_OUTPUT);
    lend(0, 1, 3);
    REFUSED(dpx_decode(r4e, NUMBERS(2), BYTES('A', 'B', LE4(0), LE4(2), LE4(2), LE8(12)), OUT3), DPX_OUTPUT);
    lend(0, 2, 3);
    GIVES(dpx_decode(r4e, NUMBERS(2), BYTES('A', 'B', LE4(0), LE4(2), LE4(2), LE8(12)), OUT3), NONE, TEXT("AB"), NUMBERS(0, 2, 2));
    release();
}

/* ------------------------------------------------------------------------------------------------- packed masks */

/* Written packed and as bytes, both read back: the same masks and values. */
static void packed_round_trip(size_t cells, size_t one_in)
{
    const uint64_t all[1] = {cells};
    const dpx_kind bytes = kind_of(2, DPX_FIXED, 3, DPX_BIG, 0), packed = kind_of(2, DPX_FIXED, 3, DPX_BIG, DPX_MASK_PACKED);
    const size_t room = 2 * (16 + cells) + 3 * cells;
    uint8_t *masks = block(2 * cells), *values = block(3 * cells), *stored = block(room), *packed_stored = block(room);
    uint64_t length = 0, packed_length = 0;
    size_t i, outer = 0, left = 0;

    for (i = 0; i < cells; i++) {
        masks[i] = i % one_in == 0;
        masks[cells + i] = i % 3 != 1;
        outer += masks[i];
        left += masks[i] & masks[cells + i];
    }
    for (i = 0; i < 3 * cells; i++)
        values[i] = (uint8_t)(i * 7 + 1);
    ANSWERS(dpx_encode(bytes, all, 1, masks, 2 * cells, values, 3 * cells, NONE, stored, room, &length), DPX_OK);
    ANSWERS(dpx_encode(packed, all, 1, masks, 2 * cells, values, 3 * cells, NONE, packed_stored, room, &packed_length), DPX_OK);
    CHECK(length == 32 + cells + outer + 3 * left);
    CHECK(packed_length == 32 + (cells + 7) / 8 + (outer + 7) / 8 + 3 * left);

    lend(2 * cells, 3 * cells, 0);
    ANSWERS(dpx_decode(bytes, all, 1, stored, length, OUT3), DPX_OK);
    memcpy(masks, out.masks, 2 * cells);
    memcpy(values, out.values, 3 * cells);
    lend(2 * cells, 3 * cells, 0);
    GIVES(dpx_decode(packed, all, 1, packed_stored, packed_length, OUT3), masks, 2 * cells, values, 3 * cells, NONE);
    release();
}

static void test_packed(void)
{
    const size_t counts[] = {1, 2, 7, 8, 9, 15, 16, 17, 63, 64, 65, 255, 256, 257, 1000, DPX_MAX_CELLS};
    const dpx_kind f1 = kind_of(1, DPX_FIXED, 1, DPX_LITTLE, DPX_MASK_PACKED), f2 = kind_of(2, DPX_FIXED, 1, DPX_LITTLE, DPX_MASK_PACKED);
    const dpx_kind r4 = kind_of(1, DPX_RAGGED, 4, DPX_START, DPX_MASK_PACKED);
    size_t i;

    for (i = 0; i < sizeof counts / sizeof counts[0]; i++) {
        packed_round_trip(counts[i], 1);
        packed_round_trip(counts[i], 2);
        packed_round_trip(counts[i], 13);
    }

    /* The lowest bit first; two bytes for nine cells. */
    lend(0, 21, 0);
    STORES(dpx_encode(f1, NUMBERS(9), BYTES(1, 1, 0, 0, 0, 0, 0, 0, 1), BYTES(1, 2, 3, 4, 5, 6, 7, 8, 9), NONE, OUT1),
           BYTES(LE8(2), LE8(3), 3, 1, 1, 2, 9));
    lend(9, 9, 0);
    GIVES(dpx_decode(f1, NUMBERS(9), BYTES(LE8(2), LE8(3), 3, 1, 1, 2, 9), OUT3), BYTES(1, 1, 0, 0, 0, 0, 0, 0, 1),
          BYTES(1, 2, 0, 0, 0, 0, 0, 0, 9), NONE);
    lend(0, 40, 0);
    STORES(dpx_encode(r4, NUMBERS(2), BYTES(0, 1), TEXT("AB"), NUMBERS(0, 1, 2), OUT1),
           BYTES(LE8(1), LE8(17), 2, LE8(8), LE4(0), LE4(1), 'B'));
    lend(2, 1, 3);
    GIVES(dpx_decode(r4, NUMBERS(2), BYTES(LE8(1), LE8(17), 2, LE8(8), LE4(0), LE4(1), 'B'), OUT3), BYTES(0, 1), TEXT("B"),
          NUMBERS(0, 0, 1));
    /* Eight of nine cells are set above: the inner mask has no unused bits. */
    lend(18, 9, 0);
    GIVES(dpx_decode(f2, NUMBERS(9), BYTES(LE8(2), LE8(25), 255, 0, LE8(1), LE8(8), 255, 1, 2, 3, 4, 5, 6, 7, 8), OUT3),
          BYTES(1, 1, 1, 1, 1, 1, 1, 1, 0, 1, 1, 1, 1, 1, 1, 1, 1, 0), BYTES(1, 2, 3, 4, 5, 6, 7, 8, 0), NONE);
    /* At depth 0 the mask form is idle; an extract has mask bytes. */
    lend(0, 1, 0);
    STORES(dpx_encode(kind_of(0, DPX_FIXED, 1, 0, DPX_MASK_PACKED), NUMBERS(1), NONE, BYTES(7), NONE, OUT1), BYTES(7));
    lend(1, 1, 0);
    GIVES(dpx_extract(f1, NUMBERS(2), NUMBERS(1, 1), BYTES(0, 1), BYTES(7, 8), NONE, OUT3), BYTES(1), BYTES(8), NONE);
    release();

    /* 13 of a mask, after its lengths and before its content; every output is too short as well. */
    lend(0, 0, 0);
    REFUSED(dpx_decode(f1, NUMBERS(1), BYTES(LE8(1), LE8(1), 3, 7), OUT3), DPX_UNUSED_BITS);
    REFUSED(dpx_decode(f1, NUMBERS(1), BYTES(LE8(1), LE8(1), 2, 7), OUT3), DPX_UNUSED_BITS);
    REFUSED(dpx_decode(f1, NUMBERS(1), BYTES(LE8(1), LE8(0), 128), OUT3), DPX_UNUSED_BITS);
    REFUSED(dpx_decode(f1, NUMBERS(9), BYTES(LE8(2), LE8(0), 0, 2), OUT3), DPX_UNUSED_BITS);
    REFUSED(dpx_decode(f1, NUMBERS(1), BYTES(LE8(1), LE8(5), 3, 1, 2, 3, 4, 5), OUT3), DPX_UNUSED_BITS);
    REFUSED(dpx_decode(f2, NUMBERS(8), BYTES(LE8(1), LE8(18), 1, LE8(1), LE8(1), 3, 7), OUT3), DPX_UNUSED_BITS);
    REFUSED(dpx_decode(r4, NUMBERS(1), BYTES(LE8(1), LE8(8), 3, FF8), OUT3), DPX_UNUSED_BITS);
    REFUSED(dpx_decode(f1, NUMBERS(1), BYTES(LE8(1), LE8(2), 3), OUT3), DPX_LENGTH);
    REFUSED(dpx_decode(f1, NUMBERS(1), BYTES(LE8(2), LE8(0), 3, 0), OUT3), DPX_LENGTH);
    REFUSED(dpx_decode(f1, NUMBERS(2), BYTES(LE8(2), LE8(2), 1, 1, 7, 8), OUT3), DPX_LENGTH);
    REFUSED(dpx_decode(f1, NUMBERS(9), BYTES(LE8(1), LE8(8), 255, 1, 2, 3, 4, 5, 6, 7, 8), OUT3), DPX_LENGTH);
    /* 4: planes handed over are bytes. */
    REFUSED(dpx_encode(f1, NUMBERS(2), BYTES(1), BYTES(7, 8), NONE, OUT1), DPX_CONTENT);
    /* 6: and so are those read. */
    lend(1, 9, 0);
    REFUSED(dpx_decode(f1, NUMBERS(2), BYTES(LE8(1), LE8(2), 3, 7, 8), OUT3), DPX_OUTPUT);
    release();
}

/* --------------------------------------------------------------------------------------------- strict mask bytes */

/* A mask of `cells` bytes with one over 01 at `at`, stored and handed over in both forms; every output is too short as well. */
static void one_over_01(size_t cells, size_t at, uint8_t over)
{
    const uint64_t all[1] = {cells}, whole[2] = {0, cells}, none[2] = {cells, 0};
    uint8_t *stored = block(16 + 2 * cells), *masks = stored + 16, *values = masks + cells;

    lend(0, 0, 0);
    memset(stored, 0, 16);
    stored[0] = (uint8_t)cells;
    stored[1] = (uint8_t)(cells >> 8);
    stored[8] = (uint8_t)(cells - 1);
    stored[9] = (uint8_t)((cells - 1) >> 8);
    memset(masks, 1, cells);
    memset(values, 7, cells);
    masks[at] = over;
    REFUSED(dpx_decode(dpx_fixed(1, 1, DPX_LITTLE), all, 1, stored, 16 + 2 * cells - 1, OUT3), DPX_NOT_BOOLEAN);
    REFUSED(dpx_encode(dpx_fixed(1, 1, DPX_LITTLE), all, 1, masks, cells, values, cells, NONE, OUT1), DPX_CONTENT);
    REFUSED(dpx_encode(dpx_packed(dpx_fixed(1, 1, DPX_LITTLE)), all, 1, masks, cells, values, cells, NONE, OUT1), DPX_CONTENT);
    REFUSED(dpx_extract(dpx_fixed(1, 1, DPX_LITTLE), all, 1, none, 2, masks, cells, values, cells, NONE, OUT3), DPX_CONTENT);
    REFUSED(dpx_merge(dpx_fixed(1, 1, DPX_LITTLE), all, 1, whole, 2, masks, cells, values, cells, NONE, OUT3), DPX_CONTENT);
    release();
}

static void test_strict(void)
{
    const dpx_kind f1 = dpx_fixed(1, 1, DPX_LITTLE), f2 = dpx_fixed(2, 1, DPX_LITTLE), r4 = dpx_ragged(1, 4, DPX_START);
    const size_t counts[] = {1, 2, 7, 8, 9, 15, 16, 17, 31, 32, 33, 64, 239, 240, 241, 256, 257, 1000};
    uint64_t over;
    size_t i;

    for (i = 0; i < sizeof counts / sizeof counts[0]; i++) {
        one_over_01(counts[i], 0, 2);
        one_over_01(counts[i], counts[i] / 2, 255);
        one_over_01(counts[i], counts[i] - 1, 128);
    }
    for (i = 0; i < 33; i++)
        one_over_01(33, i, (uint8_t)(2 << i % 7));
    for (over = 2; over < 256; over++)
        one_over_01(2, over & 1, (uint8_t)over);

    /* 14 of a mask, after its lengths and before its content, also where no cell is set. */
    lend(0, 0, 0);
    REFUSED(dpx_decode(f1, NUMBERS(1), BYTES(LE8(1), LE8(0), 2), OUT3), DPX_NOT_BOOLEAN);
    REFUSED(dpx_decode(f1, NUMBERS(1), BYTES(LE8(1), LE8(5), 2, 1, 2, 3, 4, 5), OUT3), DPX_NOT_BOOLEAN);
    REFUSED(dpx_decode(f1, NUMBERS(2), BYTES(LE8(2), LE8(1), 255, 2, 7), OUT3), DPX_NOT_BOOLEAN);
    REFUSED(dpx_decode(f1, NUMBERS(2), BYTES(LE8(2), LE8(9), 1, 2, 1, 2, 3, 4, 5, 6, 7, 8, 9), OUT3), DPX_NOT_BOOLEAN);
    REFUSED(dpx_decode(f2, NUMBERS(2), BYTES(LE8(2), LE8(1), 1, 2, 'x'), OUT3), DPX_NOT_BOOLEAN);
    REFUSED(dpx_decode(f2, NUMBERS(2), BYTES(LE8(2), LE8(1), 1, 1, 'x'), OUT3), DPX_SHORT);
    REFUSED(dpx_decode(r4, NUMBERS(2), BYTES(LE8(2), LE8(8), 1, 2, FF8), OUT3), DPX_NOT_BOOLEAN);
    REFUSED(dpx_decode(r4, NUMBERS(2), BYTES(LE8(2), LE8(8), 1, 1, FF8), OUT3), DPX_LENGTH);
    REFUSED(dpx_decode(f2, NUMBERS(2), BYTES(LE8(2), LE8(18), 0, 1, LE8(1), LE8(1), 2, 7), OUT3), DPX_NOT_BOOLEAN);
    REFUSED(dpx_decode(f1, NUMBERS(1), BYTES(LE8(1), LE8(2), 2), OUT3), DPX_LENGTH);
    REFUSED(dpx_decode(f1, NUMBERS(1), BYTES(LE8(2), LE8(0), 2, 2), OUT3), DPX_LENGTH);
    REFUSED(dpx_decode(f1, NUMBERS(0), BYTES(LE8(1), LE8(0), 2), OUT3), DPX_SHAPE);
    /* 4: hidden ones too; after 3, and before 12. */
    REFUSED(dpx_encode(f2, NUMBERS(1), BYTES(0, 2), BYTES(7), NONE, OUT1), DPX_CONTENT);
    REFUSED(dpx_encode(dpx_packed(f2), NUMBERS(1), BYTES(0, 255), BYTES(7), NONE, OUT1), DPX_CONTENT);
    REFUSED(dpx_extract(f1, NUMBERS(1), NUMBERS(0, 2), BYTES(2), BYTES(7), NONE, OUT3), DPX_SUBSET);
    REFUSED(dpx_merge(f1, NUMBERS(1), NUMBERS(0, 1, 0, 0), BYTES(2), BYTES(7), NONE, OUT3), DPX_SUBSET);
    REFUSED(dpx_merge(f1, NUMBERS(2), NUMBERS(0, 1), BYTES(2), BYTES(7), NONE, OUT3), DPX_CONTENT);
    REFUSED(dpx_merge(f1, NUMBERS(2), NUMBERS(0, 1), BYTES(1), BYTES(7), NONE, OUT3), DPX_COVER);
    REFUSED(dpx_merge(f1, NUMBERS(1), NUMBERS(0, 1, 0, 1), BYTES(1, 2), BYTES(7, 8), NONE, OUT3), DPX_CONTENT);
    release();
}

/* -------------------------------------------------------------------------------------------------- hidden bytes */

/* A first offset above 0, handed over: 4 of each call. `shape` has one side. */
static void late_offsets(dpx_kind kind, const uint64_t *shape, const uint8_t *masks, size_t masks_len, const uint8_t *values, size_t size,
                         const uint64_t *offsets)
{
    const uint64_t whole[2] = {0, shape[0]}, none[2] = {shape[0], 0};
    const size_t count = shape[0] + 1;

    REFUSED(dpx_encode(kind, shape, 1, masks, masks_len, values, size, offsets, count, OUT1), DPX_CONTENT);
    REFUSED(dpx_extract(kind, shape, 1, whole, 2, masks, masks_len, values, size, offsets, count, OUT3), DPX_CONTENT);
    REFUSED(dpx_extract(kind, shape, 1, none, 2, masks, masks_len, values, size, offsets, count, OUT3), DPX_CONTENT);
    REFUSED(dpx_merge(kind, shape, 1, whole, 2, masks, masks_len, values, size, offsets, count, OUT3), DPX_CONTENT);
    if (kind.depth == 0)
        REFUSED(dpx_encode_interleaved(kind, shape, 1, masks, masks_len, values, size, offsets, count, OUT1), DPX_CONTENT);
}

/* Ragged values of one cell, read whole and in part, and below a mask. */
static void stored_ragged(const uint8_t *stored, size_t length, uint32_t refusal)
{
    const uint64_t one[1] = {1}, none[2] = {1, 0};
    uint8_t *framed = block(17 + length);

    REFUSED(dpx_decode(dpx_ragged(0, 4, DPX_START), one, 1, stored, length, OUT3), refusal);
    REFUSED(dpx_partial_decode(4, DPX_START, one, 1, none, 2, stored, length, OUT2), refusal);
    memset(framed, 0, 17);
    framed[0] = framed[16] = 1;
    framed[8] = (uint8_t)length;
    memcpy(framed + 17, stored, length);
    REFUSED(dpx_decode(dpx_ragged(1, 4, DPX_START), one, 1, framed, 17 + length, OUT3), refusal);
}

/* Bytes that are in no cell. Every output is too short as well. */
static void test_hidden(void)
{
    const dpx_kind f1 = dpx_fixed(1, 1, DPX_LITTLE), f2 = dpx_fixed(2, 1, DPX_LITTLE), r4 = dpx_ragged(0, 4, DPX_START);
    const dpx_kind r4e = dpx_ragged(0, 4, DPX_END);
    const uint64_t one[1] = {1}, two[1] = {2};

    /* 8: content behind a mask in which no cell is set, whatever it is, after 13 and 14 of that mask. */
    lend(0, 0, 0);
    REFUSED(dpx_decode(dpx_fixed(1, 2, DPX_LITTLE), NUMBERS(3), BYTES(LE8(3), LE8(5), 0, 0, 0, 9, 9, 9, 9, 9), OUT3), DPX_LENGTH);
    REFUSED(dpx_decode(f1, NUMBERS(1), BYTES(LE8(1), LE8(1), 0, 7), OUT3), DPX_LENGTH);
    REFUSED(dpx_decode(dpx_packed(f1), NUMBERS(1), BYTES(LE8(1), LE8(1), 0, 7), OUT3), DPX_LENGTH);
    REFUSED(dpx_decode(dpx_ragged(1, 4, DPX_START), NUMBERS(1), BYTES(LE8(1), LE8(16), 0, LE8(8), LE4(0), LE4(0)), OUT3), DPX_LENGTH);
    REFUSED(dpx_decode(f2, NUMBERS(1), BYTES(LE8(1), LE8(17), 0, LE8(1), LE8(0), 0), OUT3), DPX_LENGTH);
    REFUSED(dpx_decode(f2, NUMBERS(1), BYTES(LE8(1), LE8(17), 0, LE8(1), LE8(0), 2), OUT3), DPX_LENGTH);
    REFUSED(dpx_decode(f2, NUMBERS(1), BYTES(LE8(1), LE8(18), 1, LE8(1), LE8(1), 0, 7), OUT3), DPX_LENGTH);
    REFUSED(dpx_decode(f1, NUMBERS(1), BYTES(LE8(1), LE8(1), 2, 7), OUT3), DPX_NOT_BOOLEAN);
    REFUSED(dpx_decode(dpx_packed(f1), NUMBERS(1), BYTES(LE8(1), LE8(1), 2, 7), OUT3), DPX_UNUSED_BITS);
    REFUSED(dpx_decode(f1, NUMBERS(1), BYTES(LE8(1), LE8(0), 0), OUT3), DPX_OUTPUT);
    release();

    /* 8 of the data, also where the last offset is 0; then 10, also of the first offset. */
    lend(0, 0, 0);
    stored_ragged(BYTES(LE8(8), LE4(0), LE4(0), 'x', 'y', 'z'), DPX_LENGTH);
    stored_ragged(BYTES(LE8(8), LE4(5), LE4(0), 'x', 'y', 'z'), DPX_LENGTH);
    stored_ragged(BYTES(LE8(8), LE4(5), LE4(0)), DPX_FALLING);
    stored_ragged(BYTES(LE8(8), LE4(1), LE4(2), 'A'), DPX_LENGTH);
    stored_ragged(BYTES(LE8(8), LE4(1), LE4(2), 'A', 'B'), DPX_FALLING);
    stored_ragged(BYTES(LE8(8), LE4(1), LE4(1), 'A'), DPX_FALLING);
    stored_ragged(BYTES(LE8(8), LE4(0), LE4(1), 'A'), DPX_OUTPUT);
    REFUSED(dpx_decode(r4e, NUMBERS(1), BYTES('x', LE4(0), LE4(0), LE8(8)), OUT3), DPX_LENGTH);
    REFUSED(dpx_decode(r4e, NUMBERS(1), BYTES('A', 'B', LE4(1), LE4(2), LE8(8)), OUT3), DPX_FALLING);
    REFUSED(dpx_decode(dpx_ragged(0, 8, DPX_START), NUMBERS(1), BYTES(LE8(16), LE8(1), LE8(2), 'A', 'B'), OUT3), DPX_FALLING);
    release();

    /* 4: also where all cells are empty or null, and of each chunk. */
    lend(0, 0, 0);
    late_offsets(r4, one, NONE, TEXT("AB"), (const uint64_t[]){1, 2});
    late_offsets(r4, one, NONE, TEXT("A"), (const uint64_t[]){1, 1});
    late_offsets(dpx_ragged(0, 8, DPX_END), two, NONE, TEXT("xab"), (const uint64_t[]){1, 2, 3});
    late_offsets(dpx_ragged(1, 4, DPX_START), one, BYTES(0), TEXT("A"), (const uint64_t[]){1, 1});
    late_offsets(dpx_ragged(4, 4, DPX_START), one, BYTES(1, 1, 1, 1), TEXT("AB"), (const uint64_t[]){1, 2});
    REFUSED(dpx_merge(r4, NUMBERS(2), NUMBERS(0, 1, 1, 1), NONE, TEXT("abc"), NUMBERS(0, 1, 1, 2), OUT3), DPX_CONTENT);
    REFUSED(dpx_merge(r4, NUMBERS(2), NUMBERS(0, 1, 1, 1), NONE, TEXT("abc"), NUMBERS(1, 2, 0, 1), OUT3), DPX_CONTENT);
    /* After 3, before 12. */
    REFUSED(dpx_extract(r4, NUMBERS(1), NUMBERS(0, 2), NONE, TEXT("AB"), NUMBERS(1, 2), OUT3), DPX_SUBSET);
    REFUSED(dpx_merge(r4, NUMBERS(1), NUMBERS(0, 1, 0, 0), NONE, TEXT("AB"), NUMBERS(1, 2, 0), OUT3), DPX_SUBSET);
    REFUSED(dpx_merge(r4, NUMBERS(2), NUMBERS(0, 1), NONE, TEXT("AB"), NUMBERS(1, 2), OUT3), DPX_CONTENT);
    release();

    /* The interleaved form ignores what follows its last cell, as ever. */
    lend(0, 1, 2);
    GIVES_VALUES(dpx_decode_interleaved(1, BYTES(LE4(1), LE4(1), 'A', 't', 'a', 'i', 'l'), OUT2), TEXT("A"), NUMBERS(0, 1));
    release();
}

/* ------------------------------------------------------------------------------------------- the interleaved form */

static void test_interleaved(void)
{
    lend(0, 4, 4);
    GIVES_VALUES(dpx_decode_interleaved(2, BYTES(LE4(2), LE4(1), 'A', LE4(0)), OUT2), TEXT("A"), NUMBERS(0, 1, 1));
    lend(0, 1, 3);
    GIVES_VALUES(dpx_decode_interleaved(2, BYTES(LE4(2), LE4(1), 'A', LE4(0), 'z'), OUT2), TEXT("A"), NUMBERS(0, 1, 1));
    lend(0, 1, 3);
    GIVES_VALUES(dpx_decode_interleaved(0, BYTES(LE4(0), 255), OUT2), NONE, NUMBERS(0));
    lend(0, 0, 2);
    GIVES_VALUES(dpx_decode_interleaved(1, BYTES(LE4(1), LE4(0)), OUT2), NONE, NUMBERS(0, 0));

    lend(0, 0, 0);
    REFUSED(dpx_decode_interleaved(0, NONE, OUT2), DPX_SHORT);
    REFUSED(dpx_decode_interleaved(0, BYTES(LE4(1)), OUT2), DPX_COUNT);
    REFUSED(dpx_decode_interleaved(0, BYTES(LE4(0)), OUT2), DPX_OUTPUT);
    REFUSED(dpx_decode_interleaved(2, BYTES(LE4(2), LE4(1), 'A', 0, 0), OUT2), DPX_SHORT);
    REFUSED(dpx_decode_interleaved(2, BYTES(LE4(1), LE4(1), 'A', 0, 0), OUT2), DPX_SHORT);
    REFUSED(dpx_decode_interleaved(2, BYTES(LE4(1), LE4(1), 'A', 0, 0, 0), OUT2), DPX_COUNT);
    REFUSED(dpx_decode_interleaved(2, BYTES(LE4(2), LE4(1), 'A', 0, 0, 0), OUT2), DPX_PAST_END);
    REFUSED(dpx_decode_interleaved(2, BYTES(LE4(2), LE4(5), 'A', LE4(0)), OUT2), DPX_PAST_END);
    REFUSED(dpx_decode_interleaved(1, BYTES(LE4(1), 255, 255, 255, 255), OUT2), DPX_PAST_END);
    lend(0, 0, 3);
    REFUSED(dpx_decode_interleaved(2, BYTES(LE4(2), LE4(1), 'A', LE4(0)), OUT2), DPX_OUTPUT);
    lend(0, 1, 2);
    REFUSED(dpx_decode_interleaved(2, BYTES(LE4(2), LE4(1), 'A', LE4(0)), OUT2), DPX_OUTPUT);
    release();
}

static void test_encode_interleaved(void)
{
    const dpx_kind r4 = dpx_ragged(0, 4, DPX_START), deep = dpx_ragged(1, 4, DPX_START), f1 = dpx_fixed(0, 1, DPX_LITTLE);

    /* Exactly enough room, more of it, and one byte less. Width and place are idle. */
    lend(0, 13, 0);
    STORES(dpx_encode_interleaved(r4, NUMBERS(2), NONE, TEXT("A"), NUMBERS(0, 1, 1), OUT1), BYTES(LE4(2), LE4(1), 'A', LE4(0)));
    lend(0, 20, 0);
    STORES(dpx_encode_interleaved(dpx_ragged(0, 8, DPX_END), NUMBERS(2, 1), NONE, TEXT("A"), NUMBERS(0, 1, 1), OUT1),
           BYTES(LE4(2), LE4(1), 'A', LE4(0)));
    lend(0, 12, 0);
    REFUSED(dpx_encode_interleaved(r4, NUMBERS(2), NONE, TEXT("A"), NUMBERS(0, 1, 1), OUT1), DPX_OUTPUT);
    lend(0, 8, 0);
    STORES(dpx_encode_interleaved(r4, NUMBERS(1), NONE, NONE, NUMBERS(0, 0), OUT1), BYTES(LE4(1), LE4(0)));
    CHECK(dpx_interleaved_room(2, 1) == 13 && dpx_interleaved_room(DPX_MAX_CELLS + 1, 1) == 0);
    CHECK(dpx_interleaved_room(1, DPX_MAX_VALUE_BYTES + 1) == 0);

    /* Another kind is 1, whatever else is wrong; then 2, 4, 6. */
    lend(0, 0, 0);
    REFUSED(dpx_encode_interleaved(deep, NONE, NONE, NONE, NONE, OUT1), DPX_KIND);
    REFUSED(dpx_encode_interleaved(deep, NUMBERS(1), BYTES(1), TEXT("A"), NUMBERS(0, 1), OUT1), DPX_KIND);
    REFUSED(dpx_encode_interleaved(f1, NUMBERS(1), NONE, TEXT("A"), NONE, OUT1), DPX_KIND);
    REFUSED(dpx_encode_interleaved(dpx_ragged(5, 4, DPX_START), NUMBERS(0), NONE, NONE, NONE, OUT1), DPX_KIND);
    REFUSED(dpx_encode_interleaved(dpx_ragged(0, 5, DPX_START), NUMBERS(1), NONE, TEXT("A"), NUMBERS(0, 1), OUT1), DPX_KIND);
    REFUSED(dpx_encode_interleaved(r4, NUMBERS(65537), BYTES(1), NONE, NONE, OUT1), DPX_SHAPE);
    REFUSED(dpx_encode_interleaved(r4, NUMBERS(1), BYTES(1), TEXT("A"), NUMBERS(0, 1), OUT1), DPX_CONTENT);
    REFUSED(dpx_encode_interleaved(r4, NUMBERS(1), NONE, TEXT("A"), NUMBERS(0, 2), OUT1), DPX_CONTENT);
    REFUSED(dpx_encode_interleaved(r4, NUMBERS(2), NONE, TEXT("AB"), NUMBERS(0, 3, 2), OUT1), DPX_CONTENT);
    REFUSED(dpx_encode_interleaved(r4, NUMBERS(1), NONE, TEXT("A"), NONE, OUT1), DPX_CONTENT);
    REFUSED(dpx_encode_interleaved(r4, NUMBERS(1), NONE, TEXT("A"), NUMBERS(0, 1), OUT1), DPX_OUTPUT);
    release();
}

/* ------------------------------------------------------------------------------------------------------ generate */

static void test_generate(void)
{
    const dpx_kind f1 = dpx_fixed(1, 1, DPX_LITTLE), r4 = dpx_ragged(0, 4, DPX_START), r1 = dpx_ragged(1, 4, DPX_START);

    /* Exactly enough room. Cell by cell, and nothing is drawn below a null. */
    lend(0, 1, 0);
    GIVES(dpx_generate(dpx_fixed(0, 1, DPX_LITTLE), NUMBERS(1), 0, OUT3), NONE, BYTES(0x6E), NONE);
    GIVES(dpx_generate(dpx_fixed(0, 1, DPX_LITTLE), NUMBERS(1), UINT32_MAX, OUT3), NONE, BYTES(0x55), NONE);
    lend(2, 2, 0);
    GIVES(dpx_generate(f1, NUMBERS(2), 0, OUT3), BYTES(1, 0), BYTES(0x50, 0), NONE);
    lend(3, 3, 0);
    GIVES(dpx_generate(f1, NUMBERS(1, 3), 0, OUT3), BYTES(1, 0, 1), BYTES(0x50, 0, 0x52), NONE);
    lend(6, 6, 0);
    GIVES(dpx_generate(dpx_fixed(2, 2, DPX_LITTLE), NUMBERS(3), 0, OUT3), BYTES(1, 0, 1, 0, 0, 1), BYTES(0, 0, 0, 0, 0x2E, 0xFE), NONE);
    lend(2, 9, 3);
    GIVES(dpx_generate(r1, NUMBERS(2), 0, OUT3), BYTES(1, 1), BYTES(0xCC, 0xF9, 0x52, 0x2E, 0xFD, 0xF0, 0xF6, 0xD1, 0x23),
          NUMBERS(0, 4, 9));
    /* A load of no value bytes. */
    lend(8, 0, 5);
    GIVES(dpx_generate(dpx_ragged(2, 4, DPX_START), NUMBERS(4), 1, OUT3), BYTES(0, 0, 1, 0, 0, 0, 1, 0), NONE, NUMBERS(0, 0, 0, 0, 0));
    release();

    /* More room than needed, 8 bytes a cell and one less; outputs that the kind does not use. Order, width, place and mask form are idle. */
    lend(3, 16, 5);
    GIVES(dpx_generate(dpx_packed(dpx_ragged(1, 8, DPX_END)), NUMBERS(2), 0, OUT3), BYTES(1, 1),
          BYTES(0xCC, 0xF9, 0x52, 0x2E, 0xFD, 0xF0, 0xF6, 0xD1, 0x23), NUMBERS(0, 4, 9));
    lend(2, 15, 3);
    GIVES(dpx_generate(r1, NUMBERS(2), 0, OUT3), BYTES(1, 1), BYTES(0xCC, 0xF9, 0x52, 0x2E, 0xFD, 0xF0, 0xF6, 0xD1, 0x23),
          NUMBERS(0, 4, 9));
    lend(5, 12, 3);
    GIVES(dpx_generate(r4, NUMBERS(2), 0, OUT3), NONE, BYTES(0x50, 0xCC, 0xF9, 0x52, 0x2E, 0xFE, 0xD9, 0xFD, 0xF6, 0xD1, 0x23, 0x96),
          NUMBERS(0, 8, 12));
    lend(3, 4, 6);
    GIVES(dpx_generate(dpx_packed(dpx_fixed(1, 1, DPX_BIG)), NUMBERS(2), 0, OUT3), BYTES(1, 0), BYTES(0x50, 0), NONE);
    release();

    /* 6, each output one short; the values also where they are the shorter part, and where masks or offsets are short beside 8 bytes a cell. */
    lend(1, 9, 3);
    REFUSED(dpx_generate(r1, NUMBERS(2), 0, OUT3), DPX_OUTPUT);
    lend(2, 8, 3);
    REFUSED(dpx_generate(r1, NUMBERS(2), 0, OUT3), DPX_OUTPUT);
    lend(2, 9, 2);
    REFUSED(dpx_generate(r1, NUMBERS(2), 0, OUT3), DPX_OUTPUT);
    lend(1, 16, 3);
    REFUSED(dpx_generate(r1, NUMBERS(2), 0, OUT3), DPX_OUTPUT);
    lend(2, 16, 2);
    REFUSED(dpx_generate(r1, NUMBERS(2), 0, OUT3), DPX_OUTPUT);
    lend(1, 2, 0);
    REFUSED(dpx_generate(f1, NUMBERS(2), 0, OUT3), DPX_OUTPUT);
    lend(2, 1, 0);
    REFUSED(dpx_generate(f1, NUMBERS(2), 0, OUT3), DPX_OUTPUT);
    lend(0, 0, 0);
    REFUSED(dpx_generate(r4, NUMBERS(2), 0, OUT3), DPX_OUTPUT);
    /* 1 before 2 before 6. */
    REFUSED(dpx_generate(dpx_ragged(1, 5, DPX_START), NUMBERS(0), 0, OUT3), DPX_KIND);
    REFUSED(dpx_generate(r1, NONE, 0, OUT3), DPX_SHAPE);
    release();
}

/* 65,536 cells: what is written, read and written again is the load; both ways to lend the output give the same. */
static void test_large_load(void)
{
    const dpx_kind kind = dpx_ragged(4, 4, DPX_START);
    const uint64_t all[1] = {DPX_MAX_CELLS};
    const size_t cells = DPX_MAX_CELLS, room = dpx_stored_room(kind, cells, 8 * cells);
    uint8_t *masks = block(4 * cells), *values = block(8 * cells), *stored = block(room), *back = block(8 * cells);
    uint64_t *offsets = block(8 * (cells + 1)), lengths[3], again[3], stored_len;

    ANSWERS(dpx_generate(kind, all, 1, 7, masks, 4 * cells, values, 8 * cells, offsets, cells + 1, lengths), DPX_OK);
    CHECK(lengths[0] == 4 * cells && lengths[1] == offsets[cells] && lengths[2] == cells + 1);
    ANSWERS(dpx_encode(kind, all, 1, masks, lengths[0], values, lengths[1], offsets, lengths[2], stored, room, &stored_len), DPX_OK);
    memcpy(back, values, lengths[1]);
    memset(values, FILL, 8 * cells);
    ANSWERS(dpx_generate(kind, all, 1, 7, masks, 4 * cells, values, lengths[1] - 1, offsets, cells + 1, again), DPX_OUTPUT);
    CHECK(filled(values, 8 * cells));
    ANSWERS(dpx_generate(kind, all, 1, 7, masks, 4 * cells, values, lengths[1], offsets, cells + 1, again), DPX_OK);
    CHECK(memcmp(again, lengths, sizeof again) == 0 && memcmp(values, back, lengths[1]) == 0);
    CHECK(filled(values + lengths[1], 8 * cells - lengths[1]));
    ANSWERS(dpx_decode(kind, all, 1, stored, stored_len, masks, 4 * cells, back, 8 * cells, offsets, cells + 1, again), DPX_OK);
    CHECK(memcmp(again, lengths, sizeof again) == 0 && memcmp(values, back, lengths[1]) == 0);
    ANSWERS(dpx_encode(kind, all, 1, masks, again[0], back, again[1], offsets, again[2], stored, room, lengths), DPX_OK);
    CHECK(lengths[0] == stored_len);
    release();
}

/* ------------------------------------------------------------------------------------------------------- extract */

static void test_extract(void)
{
    const dpx_kind f1 = dpx_fixed(1, 1, DPX_LITTLE), r4 = dpx_ragged(0, 4, DPX_START);

    lend(5, 5, 1);
    GIVES(dpx_extract(f1, NUMBERS(2, 3), NUMBERS(0, 1, 2, 2), BYTES(1, 0, 1, 0, 1, 0), TEXT("abcdef"), NONE, OUT3), BYTES(0, 1, 1, 0),
          TEXT("bcef"), NONE);
    /* Two planes: each is cut by itself. */
    lend(4, 4, 0);
    GIVES(dpx_extract(dpx_fixed(2, 1, DPX_LITTLE), NUMBERS(3), NUMBERS(1, 2), BYTES(0, 1, 0, 1, 0, 1), TEXT("abc"), NONE, OUT3),
          BYTES(1, 0, 0, 1), TEXT("bc"), NONE);
    /* The last of two cells: its offsets begin with 0. */
    lend(0, 2, 3);
    GIVES(dpx_extract(r4, NUMBERS(2), NUMBERS(1, 1), NONE, TEXT("AB"), NUMBERS(0, 1, 2), OUT3), NONE, TEXT("B"), NUMBERS(0, 1));
    /* What a null hides is kept. */
    lend(2, 2, 2);
    GIVES(dpx_extract(dpx_ragged(2, 8, DPX_START), NUMBERS(2), NUMBERS(1, 1), BYTES(1, 0, 1, 1), TEXT("zAB"), NUMBERS(0, 1, 3), OUT3),
          BYTES(0, 1), TEXT("AB"), NUMBERS(0, 2));
    /* No cell at all. */
    lend(1, 1, 1);
    GIVES(dpx_extract(r4, NUMBERS(2), NUMBERS(2, 0), NONE, TEXT("ab"), NUMBERS(0, 1, 2), OUT3), NONE, NONE, NUMBERS(0));
    lend(0, 0, 0);
    REFUSED(dpx_extract(r4, NUMBERS(2), NUMBERS(2, 0), NONE, TEXT("ab"), NUMBERS(0, 1, 2), OUT3), DPX_OUTPUT);
    GIVES(dpx_extract(f1, NUMBERS(2), NUMBERS(0, 0), BYTES(1, 1), TEXT("ab"), NONE, OUT3), NONE, NONE, NONE);
    release();

    lend(0, 0, 0);
    REFUSED(dpx_extract(f1, NUMBERS(2, 3), NUMBERS(0, 2, 2, 2), NONE, NONE, NONE, OUT3), DPX_SUBSET);
    REFUSED(dpx_extract(f1, NUMBERS(2), NUMBERS(0), NONE, NONE, NONE, OUT3), DPX_SUBSET);
    REFUSED(dpx_extract(f1, NUMBERS(2), NUMBERS(0, 1, 1, 1), NONE, NONE, NONE, OUT3), DPX_SUBSET);
    REFUSED(dpx_extract(f1, NUMBERS(2), NUMBERS(0, 1), BYTES(1), TEXT("ab"), NONE, OUT3), DPX_CONTENT);
    REFUSED(dpx_extract(f1, NUMBERS(2), NUMBERS(0, 1), BYTES(1, 1), TEXT("a"), NONE, OUT3), DPX_CONTENT);
    REFUSED(dpx_extract(f1, NUMBERS(2), NUMBERS(0, 1), BYTES(1, 1), TEXT("ab"), NUMBERS(0), OUT3), DPX_CONTENT);
    REFUSED(dpx_extract(r4, NUMBERS(2), NUMBERS(0, 1), NONE, TEXT("ab"), NUMBERS(1, 0, 2), OUT3), DPX_CONTENT);
    REFUSED(dpx_extract(r4, NUMBERS(1), NUMBERS(0, 1), NONE, NONE, NUMBERS(0, UINT64_C(1) << 40), OUT3), DPX_CONTENT);
    lend(0, 1, 0);
    REFUSED(dpx_extract(f1, NUMBERS(2), NUMBERS(0, 1), BYTES(1, 1), TEXT("ab"), NONE, OUT3), DPX_OUTPUT);
    lend(1, 0, 0);
    REFUSED(dpx_extract(f1, NUMBERS(2), NUMBERS(0, 1), BYTES(1, 1), TEXT("ab"), NONE, OUT3), DPX_OUTPUT);
    lend(0, 1, 1);
    REFUSED(dpx_extract(r4, NUMBERS(2), NUMBERS(0, 1), NONE, TEXT("ab"), NUMBERS(0, 1, 2), OUT3), DPX_OUTPUT);
    release();
}

/* --------------------------------------------------------------------------------------------------------- merge */

static void test_merge(void)
{
    const dpx_kind f1 = dpx_fixed(0, 1, DPX_LITTLE), r8 = dpx_ragged(0, 8, DPX_START);

    /* Chunk by chunk: all planes of the first, then all of the second. */
    lend(5, 3, 1);
    GIVES(dpx_merge(dpx_fixed(2, 1, DPX_LITTLE), NUMBERS(2), NUMBERS(1, 1, 0, 1), BYTES(1, 0, 1, 1), TEXT("ba"), NONE, OUT3),
          BYTES(1, 1, 1, 0), TEXT("ab"), NONE);
    /* Ragged chunks: the offsets of each begin with 0. */
    lend(2, 8, 4);
    GIVES(dpx_merge(dpx_ragged(1, 4, DPX_END), NUMBERS(2), NUMBERS(1, 1, 0, 1), BYTES(1, 0), TEXT("cdab"), NUMBERS(0, 2, 0, 2), OUT3),
          BYTES(0, 1), TEXT("abcd"), NUMBERS(0, 2, 4));
    /* Two columns of a 2 x 2 table. */
    lend(0, 8, 8);
    GIVES(dpx_merge(r8, NUMBERS(2, 2), NUMBERS(0, 0, 2, 1, 0, 1, 2, 1), NONE, TEXT("acccbbd"), NUMBERS(0, 1, 4, 0, 2, 3), OUT3), NONE,
          TEXT("abbcccd"), NUMBERS(0, 1, 3, 6, 7));
    release();

    lend(0, 0, 0);
    REFUSED(dpx_merge(f1, NUMBERS(1), NUMBERS(0, 1, 0), NONE, TEXT("a"), NONE, OUT3), DPX_SUBSET);
    REFUSED(dpx_merge(f1, NUMBERS(1), NUMBERS(0, 2), NONE, TEXT("a"), NONE, OUT3), DPX_SUBSET);
    REFUSED(dpx_merge(f1, NUMBERS(1), NUMBERS(UINT64_MAX, 1), NONE, TEXT("a"), NONE, OUT3), DPX_SUBSET);
    REFUSED(dpx_merge(r8, NUMBERS(1), NUMBERS(0, 1, 0, 0), NONE, TEXT("a"), NUMBERS(0, 1, 0), OUT3), DPX_SUBSET);
    REFUSED(dpx_merge(f1, NUMBERS(2), NUMBERS(0, 1, 1, 1), NONE, TEXT("abc"), NONE, OUT3), DPX_CONTENT);
    REFUSED(dpx_merge(f1, NUMBERS(2), NUMBERS(0, 1, 1, 1), NONE, TEXT("a"), NONE, OUT3), DPX_CONTENT);
    REFUSED(dpx_merge(f1, NUMBERS(1), NONE, NONE, TEXT("a"), NONE, OUT3), DPX_CONTENT);
    REFUSED(dpx_merge(dpx_ragged(1, 4, DPX_START), NUMBERS(1), NONE, BYTES(1), NONE, NONE, OUT3), DPX_CONTENT);
    REFUSED(dpx_merge(r8, NUMBERS(2), NUMBERS(0, 1, 1, 1), NONE, NONE, NUMBERS(0, UINT64_C(1) << 63, 0, UINT64_C(1) << 63), OUT3),
            DPX_CONTENT);
    REFUSED(dpx_merge(r8, NUMBERS(2), NUMBERS(0, 2), NONE, TEXT("ab"), NUMBERS(0, 3, 2), OUT3), DPX_CONTENT);
    REFUSED(dpx_merge(r8, NUMBERS(1), NUMBERS(0, 1), NONE, TEXT("ab"), NUMBERS(0, 1), OUT3), DPX_CONTENT);
    REFUSED(dpx_merge(f1, NUMBERS(2), NUMBERS(0, 1, 0, 1), NONE, TEXT("ab"), NONE, OUT3), DPX_COVER);
    REFUSED(dpx_merge(f1, NUMBERS(2), NUMBERS(0, 1), NONE, TEXT("a"), NONE, OUT3), DPX_COVER);
    REFUSED(dpx_merge(f1, NUMBERS(2), NUMBERS(0, 2, 1, 1), NONE, TEXT("abb"), NONE, OUT3), DPX_COVER);
    REFUSED(dpx_merge(dpx_ragged(1, 4, DPX_START), NUMBERS(1), NONE, NONE, NONE, NONE, OUT3), DPX_COVER);
    REFUSED(dpx_merge(f1, NUMBERS(1), NUMBERS(0, 1), NONE, TEXT("a"), NONE, OUT3), DPX_OUTPUT);
    release();
    /* 12 with room lent: the room stays as it was. */
    lend(0, 2, 0);
    REFUSED(dpx_merge(f1, NUMBERS(2), NUMBERS(0, 1, 0, 1), NONE, TEXT("ab"), NONE, OUT3), DPX_COVER);
    lend(0, 2, 2);
    REFUSED(dpx_merge(r8, NUMBERS(2), NUMBERS(0, 1, 1, 1), NONE, TEXT("ab"), NUMBERS(0, 1, 0, 1), OUT3), DPX_OUTPUT);
    lend(0, 1, 3);
    REFUSED(dpx_merge(r8, NUMBERS(2), NUMBERS(0, 1, 1, 1), NONE, TEXT("ab"), NUMBERS(0, 1, 0, 1), OUT3), DPX_OUTPUT);
    lend(0, 2, 3);
    GIVES(dpx_merge(r8, NUMBERS(2), NUMBERS(0, 1, 1, 1), NONE, TEXT("ab"), NUMBERS(0, 1, 0, 1), OUT3), NONE, TEXT("ab"), NUMBERS(0, 1, 2));
    release();
}

/* ------------------------------------------------------------------------------------------------- partial_decode */

static void test_partial(void)
{
    lend(0, 4, 4);
    GIVES_VALUES(dpx_partial_decode(4, DPX_END, NUMBERS(2), NUMBERS(0, 1), BYTES('A', 'B', LE4(0), LE4(2), LE4(2), LE8(12)), OUT2), TEXT("AB"),
                 NUMBERS(0, 2));
    lend(0, 4, 4);
    GIVES_VALUES(dpx_partial_decode(8, DPX_START, NUMBERS(2), NUMBERS(1, 1), BYTES(LE8(24), LE8(0), LE8(2), LE8(3), 'A', 'B', 'C'), OUT2),
                 TEXT("C"), NUMBERS(0, 1));
    lend(0, 0, 1);
    GIVES_VALUES(dpx_partial_decode(4, DPX_START, NUMBERS(1), NUMBERS(1, 0), BYTES(LE8(8), LE4(0), LE4(2), 'A', 'B'), OUT2), NONE, NUMBERS(0));

    lend(0, 0, 0);
    REFUSED(dpx_partial_decode(4, DPX_START, NUMBERS(1), NUMBERS(0, 2), NONE, OUT2), DPX_SUBSET);
    REFUSED(dpx_partial_decode(4, DPX_START, NUMBERS(1), NUMBERS(0), NONE, OUT2), DPX_SUBSET);
    REFUSED(dpx_partial_decode(4, DPX_START, NUMBERS(1), NUMBERS(0, 1), BYTES(1, 2, 3), OUT2), DPX_SHORT);
    REFUSED(dpx_partial_decode(4, DPX_START, NUMBERS(1), NUMBERS(0, 1), BYTES(FF8), OUT2), DPX_LENGTH);
    REFUSED(dpx_partial_decode(8, DPX_START, NUMBERS(1), NUMBERS(0, 1), BYTES(LE8(8), LE4(0), LE4(0)), OUT2), DPX_LENGTH);
    REFUSED(dpx_partial_decode(4, DPX_START, NUMBERS(1), NUMBERS(0, 1), BYTES(LE8(8), LE4(0), LE4(2), 'a'), OUT2), DPX_LENGTH);
    REFUSED(dpx_partial_decode(4, DPX_START, NUMBERS(1), NUMBERS(0, 1), BYTES(LE8(8), LE4(2), LE4(1), 'a'), OUT2), DPX_FALLING);
    REFUSED(dpx_partial_decode(4, DPX_START, NUMBERS(1), NUMBERS(1, 0), BYTES(LE8(8), LE4(0), LE4(0)), OUT2), DPX_OUTPUT);
    lend(0, 0, 2);
    REFUSED(dpx_partial_decode(4, DPX_START, NUMBERS(1), NUMBERS(0, 1), BYTES(LE8(8), LE4(0), LE4(1), 'a'), OUT2), DPX_OUTPUT);
    lend(0, 1, 1);
    REFUSED(dpx_partial_decode(4, DPX_START, NUMBERS(1), NUMBERS(0, 1), BYTES(LE8(8), LE4(0), LE4(1), 'a'), OUT2), DPX_OUTPUT);
    release();
}

/* -------------------------------------------------------------------------------- reverse_endianness, subset_cells */

static void reverse(uint64_t size, const char *before, const char *after, uint64_t length)
{
    size_t count = strlen(before);
    lend(0, count, 0);
    if (count > 0)
        memcpy(out.values, before, count);
    ANSWERS(dpx_reverse_endianness(size, out.values, count, out.lengths), DPX_OK);
    CHECK(out.lengths[0] == length && out.lengths[1] == FILL64);
    CHECK(memcmp(out.values, after, count) == 0);
    CHECK(kept(out.values, count, count));
    release();
}

static void test_reverse(void)
{
    reverse(3, "\1\2\3\4\5\6\7", "\3\2\1\6\5\4\7", 6);
    reverse(1, "abc", "abc", 3);
    reverse(2, "abcd", "badc", 4);
    reverse(64, "abc", "abc", 0);
    reverse(3, "abc", "cba", 3);
    reverse(8, "", "", 0);

    lend(0, 65, 0);
    REFUSED(dpx_reverse_endianness(0, OUT1), DPX_KIND);
    REFUSED(dpx_reverse_endianness(65, OUT1), DPX_KIND);
    REFUSED(dpx_reverse_endianness(UINT64_MAX, OUT1), DPX_KIND);
    REFUSED(dpx_reverse_endianness(0, NONE, out.lengths), DPX_KIND);
    ANSWERS(dpx_reverse_endianness(4, NONE, out.lengths), DPX_OK);
    CHECK(out.lengths[0] == 0);
    release();
}

static void check_cells(const uint64_t *cells, size_t count, int line)
{
    check(out.lengths[0] == count && out.lengths[1] == FILL64, "count of the cells", line);
    check_kept(0, 0, count, line);
    check_is(out.offsets, cells, count * 8, "cells", line);
}

static void test_subset_cells(void)
{
    lend(0, 0, 6);
    ANSWERS(dpx_subset_cells(NUMBERS(2, 3), NUMBERS(0, 1, 2, 2), OUT_CELLS), DPX_OK);
    check_cells(NUMBERS(1, 2, 4, 5), __LINE__);
    lend(0, 0, 4);
    ANSWERS(dpx_subset_cells(NUMBERS(2, 2, 2, 2), NUMBERS(0, 1, 0, 1, 1, 1, 2, 1), OUT_CELLS), DPX_OK);
    check_cells(NUMBERS(5, 7), __LINE__);
    lend(0, 0, 0);
    ANSWERS(dpx_subset_cells(NUMBERS(2, 3), NUMBERS(2, 0, 0, 3), OUT_CELLS), DPX_OK);
    check_cells(NONE, __LINE__);

    lend(0, 0, 3);
    REFUSED(dpx_subset_cells(NUMBERS(2, 3), NUMBERS(0, 2, 2, 2), OUT_CELLS), DPX_SUBSET);
    REFUSED(dpx_subset_cells(NUMBERS(1), NONE, OUT_CELLS), DPX_SUBSET);
    REFUSED(dpx_subset_cells(NUMBERS(1), NUMBERS(0, 1, 0, 1), OUT_CELLS), DPX_SUBSET);
    REFUSED(dpx_subset_cells(NUMBERS(1), NUMBERS(UINT64_MAX, 1), OUT_CELLS), DPX_SUBSET);
    REFUSED(dpx_subset_cells(NUMBERS(1), NUMBERS(UINT64_C(1) << 63, UINT64_C(1) << 63), OUT_CELLS), DPX_SUBSET);
    REFUSED(dpx_subset_cells(NUMBERS(2, 2), NUMBERS(0, 0, 0, 3), OUT_CELLS), DPX_SUBSET);
    REFUSED(dpx_subset_cells(NUMBERS(2, 3), NUMBERS(0, 1, 2, 2), OUT_CELLS), DPX_OUTPUT);
    release();
}

/* -------------------------------------------------------------------------------------------------------- limits */

/* A field of eight bytes, and one of four. */
static void put(uint8_t *at, uint64_t number, size_t width)
{
    size_t i;
    for (i = 0; i < width; i++)
        at[i] = (uint8_t)(number >> (8 * i));
}

/* 16,777,216 value bytes pass, and one more, which was too many once. What is too many is in long.c. */
static void long_values(size_t most)
{
    const dpx_kind kind = dpx_ragged(0, 8, DPX_START), masked = dpx_ragged(1, 8, DPX_START);
    const uint64_t one[1] = {1}, two[1] = {2}, whole[2] = {0, 1}, halves[4] = {1, 1, 0, 1}, offsets[2] = {0, most};
    const uint64_t chunks[4] = {0, most / 2, 0, most - most / 2};
    const uint8_t set = 1, neither = 2;
    uint8_t *values = block(most + 1), *stored = block(most + 42), *back = block(most + 42), mask = FILL;
    uint64_t got[3] = {7, 7, 7}, lengths[3] = {7, 7, 7};
    size_t i;

    for (i = 0; i < most + 1; i++)
        values[i] = (uint8_t)(i * 7 + (i >> 8));
    memset(stored, FILL, most + 42);
    memset(back, FILL, most + 42);

    ANSWERS(dpx_encode(kind, one, 1, NONE, values, most, offsets, 2, stored, most + 24, lengths), DPX_OK);
    CHECK(lengths[0] == most + 24 && lengths[1] == 7 && stored[most + 24] == FILL);
    ANSWERS(dpx_decode(kind, one, 1, stored, most + 24, NONE, back, most, got, 2, lengths), DPX_OK);
    CHECK(lengths[0] == 0 && lengths[1] == most && lengths[2] == 2 && got[0] == 0 && got[1] == most && got[2] == 7);
    CHECK(memcmp(values, back, most) == 0 && back[most] == FILL);
    memset(back, FILL, most);
    ANSWERS(dpx_partial_decode(8, DPX_START, one, 1, whole, 2, stored, most + 24, back, most, got, 2, lengths), DPX_OK);
    CHECK(lengths[0] == most && lengths[1] == 2 && memcmp(values, back, most) == 0 && back[most] == FILL);
    memset(back, FILL, most);
    ANSWERS(dpx_extract(kind, one, 1, whole, 2, NONE, values, most, offsets, 2, NONE, back, most, got, 2, lengths), DPX_OK);
    CHECK(lengths[1] == most && lengths[2] == 2 && memcmp(values, back, most) == 0 && back[most] == FILL);
    memset(back, FILL, most);
    ANSWERS(dpx_merge(kind, one, 1, whole, 2, NONE, values, most, offsets, 2, NONE, back, most, got, 2, lengths), DPX_OK);
    CHECK(lengths[1] == most && lengths[2] == 2 && memcmp(values, back, most) == 0 && back[most] == FILL);
    memset(back, FILL, most);
    ANSWERS(dpx_merge(kind, two, 1, halves, 4, NONE, values, most, chunks, 4, NONE, back, most, got, 3, lengths), DPX_OK);
    CHECK(lengths[1] == most && got[1] == most - most / 2 && memcmp(values, back + got[1], most / 2) == 0 && back[most] == FILL);
    CHECK(memcmp(values + most / 2, back, got[1]) == 0);
    put(stored, 1, 4);
    put(stored + 4, most, 4);
    memcpy(stored + 8, values, most + 1);
    memset(back, FILL, most);
    ANSWERS(dpx_decode_interleaved(1, stored, most + 9, back, most, got, 2, lengths), DPX_OK);
    CHECK(lengths[0] == most && lengths[1] == 2 && memcmp(values, back, most) == 0 && back[most] == FILL);
    memset(back, FILL, most);
    ANSWERS(dpx_encode_interleaved(kind, one, 1, NONE, values, most, offsets, 2, back, most + 8, lengths), DPX_OK);
    CHECK(lengths[0] == most + 8 && memcmp(stored, back, most + 8) == 0 && back[most + 8] == FILL);
    ANSWERS(dpx_encode(masked, one, 1, &neither, 1, values, most, offsets, 2, back, most + 41, lengths), DPX_CONTENT);
    ANSWERS(dpx_encode(masked, one, 1, &set, 1, values, most, offsets, 2, back, most + 41, lengths), DPX_OK);
    CHECK(lengths[0] == most + 41 && back[most + 41] == FILL);
    memcpy(stored, back, most + 41);
    memset(back, FILL, most);
    ANSWERS(dpx_decode(masked, one, 1, stored, most + 41, &mask, 1, back, most, got, 2, lengths), DPX_OK);
    CHECK(mask == 1 && lengths[1] == most && memcmp(values, back, most) == 0);
    release();
}

static void test_long_values(void)
{
    long_values(16777216);
    long_values(16777217);
}

/* Copies of so many bytes are made in other ways: from 257 bytes to 1,048,576 the archive calls memmove. */
static void copy_values(dpx_kind kind, uint64_t cells, const uint64_t *offsets, size_t count, const uint8_t *values, size_t size)
{
    const uint8_t *given = in(values, size);
    const size_t stored = size + (count == 0 ? 0 : 8 + 8 * count);
    const uint8_t *bytes;

    lend(0, stored + 3, 0);
    ANSWERS(dpx_encode(kind, &cells, 1, NONE, given, size, offsets, count, OUT1), DPX_OK);
    CHECK(out.lengths[0] == stored);
    check_kept(0, stored, 0, __LINE__);
    check_is(out.values + (stored - size), values, size, "values as they were", __LINE__);
    bytes = in(out.values, stored);
    lend(0, size + 3, count);
    GIVES(dpx_decode(kind, &cells, 1, bytes, stored, OUT3), NULL, 0, values, size, offsets, count);
    release();
}

static void test_copies(void)
{
    static const struct {
        uint64_t size, cells;
    } plain[] = {{1, 255}, {1, 256}, {1, 257}, {2, 129}, {4, 4096}, {16, 65535}, {16, 65536}, {17, 61681}};
    static const size_t one_cell[] = {1, 255, 256, 257, 1048575, 1048576, 1048577};
    static uint8_t values[1048577];
    size_t i;

    for (i = 0; i < sizeof values; i++)
        values[i] = (uint8_t)(i * 13 + (i >> 8) + (i >> 16));
    for (i = 0; i < sizeof plain / sizeof plain[0]; i++)
        copy_values(dpx_fixed(0, plain[i].size, DPX_LITTLE), plain[i].cells, NULL, 0, values, plain[i].size * plain[i].cells);
    for (i = 0; i < sizeof one_cell / sizeof one_cell[0]; i++) {
        const uint64_t offsets[2] = {0, one_cell[i]};
        copy_values(dpx_ragged(0, 8, DPX_START), 1, offsets, 2, values, one_cell[i]);
    }
}

/* Depth 4, size 64, 65,536 cells. */
static void test_limits(void)
{
    const size_t cells = DPX_MAX_CELLS, room = 4 * (16 + cells) + 64 * cells;
    const uint64_t all[1] = {DPX_MAX_CELLS};
    uint8_t *masks = block(4 * cells), *values = block(64 * cells), *stored = block(room);
    uint8_t *masks_back = block(4 * cells), *back = block(64 * cells);
    uint64_t lengths[3];
    size_t i;

    for (i = 0; i < 4 * cells; i++)
        masks[i] = 1;
    for (i = 0; i < 64 * cells; i++)
        values[i] = (uint8_t)(i * 31 + (i >> 9));
    ANSWERS(dpx_encode(dpx_fixed(4, 64, DPX_BIG), all, 1, masks, 4 * cells, values, 64 * cells, NONE, stored, room, lengths), DPX_OK);
    CHECK(lengths[0] == room);
    ANSWERS(dpx_decode(dpx_fixed(4, 64, DPX_BIG), all, 1, stored, room, masks_back, 4 * cells, back, 64 * cells, NONE, lengths), DPX_OK);
    CHECK(lengths[0] == 4 * cells && lengths[1] == 64 * cells && lengths[2] == 0);
    CHECK(memcmp(masks, masks_back, 4 * cells) == 0 && memcmp(values, back, 64 * cells) == 0);
    /* The last mask byte of 262,144, handed over; the last one of 65,536, stored. */
    masks[4 * cells - 1] = 2;
    ANSWERS(dpx_encode(dpx_fixed(4, 64, DPX_BIG), all, 1, masks, 4 * cells, values, 64 * cells, NONE, stored, room, lengths), DPX_CONTENT);
    stored[16 + cells - 1] = 2;
    ANSWERS(dpx_decode(dpx_fixed(4, 64, DPX_BIG), all, 1, stored, room, masks_back, 4 * cells, back, 64 * cells, NONE, lengths),
            DPX_NOT_BOOLEAN);
    release();
}

int main(void)
{
    test_kind();
    test_shape();
    test_encode();
    test_decode();
    test_packed();
    test_strict();
    test_hidden();
    test_interleaved();
    test_encode_interleaved();
    test_generate();
    test_large_load();
    test_extract();
    test_merge();
    test_partial();
    test_reverse();
    test_subset_cells();
    test_long_values();
    test_copies();
    test_limits();
    release();
    printf("C interface: %lu checks, %lu failed\n", checks, failures);
    return failures == 0 ? 0 : 1;
}
