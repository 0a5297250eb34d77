/*
 * Working tables from C: the lines of docs/SPEC.md, S10.37 to S10.46, every refusal of every call in its order, what stays
 * untouched, and a large table that is edited and packed until it is read out again.
 *
 * The four lists of a table lie between guards; after each call every byte of them is held against what it should be. Before
 * each setting its preview is asked for, which must be refused alike, or say what is there afterwards, and change nothing.
 */
#include "held.h"

static void check_named(uint64_t a, uint64_t b, uint64_t c, uint64_t d, int line)
{
    check(t.named[0] == a && t.named[1] == b && t.named[2] == c && t.named[3] == d, "lengths as named", line);
}

#define SETS(kind, cells, cell, masks, value)                                        \
    do {                                                                             \
        foresee(kind, cells, cell, masks, value, DPX_OK, __LINE__);                  \
        ANSWERS(dpx_table_set(kind, cells, TABLE, cell, masks, value), DPX_OK);      \
        check_named(FILL64, FILL64, FILL64, FILL64, __LINE__);                       \
        check_foreseen(__LINE__);                                                    \
    } while (0)
#define NOT_SET(kind, cells, cell, masks, value, wanted)                             \
    do {                                                                             \
        foresee(kind, cells, cell, masks, value, wanted, __LINE__);                  \
        ANSWERS(dpx_table_set(kind, cells, TABLE, cell, masks, value), wanted);      \
    } while (0)
#define PACKS(kind, cells, most, moved) \
    ANSWERS(dpx_table_pack(kind, cells, TABLE, most, t.named), DPX_OK), check_named(moved, FILL64, FILL64, FILL64, __LINE__)
#define NOT_PACKED(kind, cells, most, wanted) \
    ANSWERS(dpx_table_pack(kind, cells, TABLE, most, t.named), wanted), check_named(FILL64, FILL64, FILL64, FILL64, __LINE__)

/* ------------------------------------------------------------------------------------------------------- preview */

/* What the last preview said. */
static uint64_t foreseen[2];

/* A preview of the table: its answer, and no byte changed; on a refusal neither of the two numbers, nor what lies beside them. */
static void foresee(dpx_kind kind, uint64_t cells, uint64_t cell, const uint8_t *masks, size_t masks_len, const uint8_t *value,
                    size_t value_len, uint32_t wanted, int line)
{
    const void *lists[6] = {t.masks, t.starts, t.lengths, t.store, masks, value};
    const size_t sizes[6] = {t.masks_len, t.starts_len * 8, t.lengths_len * 8, t.store_len, masks_len, value_len};
    uint8_t *before[6], *room = guarded(sizeof foreseen);
    uint32_t answer;
    size_t i;
    for (i = 0; i < 6; i++) {
        before[i] = guarded(sizes[i]);
        put(before[i], lists[i], sizes[i]);
    }
    answer = dpx_table_preview(kind, cells, TABLE, cell, masks, masks_len, value, value_len, (uint64_t *)(void *)room);
    check_answer(answer, wanted, "dpx_table_preview", line);
    for (i = 0; i < 6; i++)
        check_is(lists[i], before[i], sizes[i], "a preview changes nothing", line);
    check(kept(room, answer == DPX_OK ? sizeof foreseen : 0, sizeof foreseen), "lengths of a preview", line);
    memcpy(foreseen, room, sizeof foreseen);
}

/* The sum of lengths of the table as it is now, and how many of its cells do not start where the lengths of lower ones end. */
static void check_foreseen(int line)
{
    uint64_t sum = 0, displaced = 0, packed;
    size_t i, j;
    for (i = 0; i < t.lengths_len; i++) {
        packed = 0;
        for (j = 0; j < t.lengths_len; j++)
            if (t.lengths[j] != 0 && t.starts[j] < t.starts[i])
                packed += t.lengths[j];
        sum += t.lengths[i];
        displaced += t.lengths[i] != 0 && t.starts[i] != packed;
    }
    check(foreseen[0] == sum, "the sum of lengths that was foreseen", line);
    check(foreseen[1] == displaced, "the cells not packed that were foreseen", line);
}

#define FORESEES(kind, cells, cell, masks, value, sum, displaced)                   \
    do {                                                                            \
        foresee(kind, cells, cell, masks, value, DPX_OK, __LINE__);                 \
        check(foreseen[0] == (sum) && foreseen[1] == (displaced), "what is foreseen", __LINE__); \
    } while (0)

static void test_preview(void)
{
    /* Behind the highest-lying cell both are displaced; where all are packed before, none is. */
    HOLD(NO, S(0, 1), S(1, 1), TEXT("xy..."));
    FORESEES(r(0), 2, 0, NO, TEXT("abc"), 4, 2);
    HOLD(NO, S(0, 1), S(1, 1), TEXT("xy.."));
    FORESEES(r(0), 2, 0, NO, TEXT("abc"), 4, 0);
    /* What is given up displaces those behind it; hidden bytes do not count. */
    FORESEES(r(0), 2, 0, NO, NONE, 1, 1);
    HOLD(BYTES(1), S(0), S(1), TEXT("x"));
    FORESEES(r(1), 1, 0, BYTES(0), TEXT("abc"), 0, 0);
    FORESEES(r(1), 1, 0, BYTES(1), TEXT("y"), 1, 0);
    /* The value may be bytes of the store. */
    HOLD(NO, S(2, 0), S(2, 2), TEXT("abcd.."));
    foresee(r(0), 2, 1, NO, t.store + 1, 2, DPX_OK, __LINE__);
    CHECK(foreseen[0] == 4 && foreseen[1] == 2);
    HOLD(NO, S(0), S(0), NONE);
    foresee(r(0), 1, 1, NO, TEXT("a"), DPX_CELL, __LINE__);
    foresee(r(0), 1, 0, NO, TEXT("a"), DPX_FULL, __LINE__);
    release();
}

/* ---------------------------------------------------------------------------------------------------------- make */

/* Lends lists of these lengths, filled. */
static void lend(size_t masks, size_t cells, size_t store)
{
    hold(NULL, masks, NULL, cells, NULL, cells, NULL, store);
}

#define MAKES(kind, cells, array, a, b, c, d) \
    ANSWERS(dpx_table_make(kind, cells, array, TABLE, t.named), DPX_OK), check_named(a, b, c, d, __LINE__)
#define NOT_MADE(kind, cells, array, wanted)                                \
    do {                                                                    \
        ANSWERS(dpx_table_make(kind, cells, array, TABLE, t.named), wanted); \
        check_named(FILL64, FILL64, FILL64, FILL64, __LINE__);              \
        AFTER(NONE, NONE, NONE, NONE);                                      \
    } while (0)
#define ARRAY(...) __VA_ARGS__

static void test_make(void)
{
    /* Of the rest form: what is hidden takes no room. */
    lend(2, 1, 0);
    MAKES(r(2), 1, ARRAY(BYTES(0, 1), TEXT("a"), NUMBERS(0, 1)), 2, 1, 1, 0);
    AFTER(BYTES(0, 0), S(0), S(0), NONE);
    lend(4, 2, 1);
    MAKES(r(2), 2, ARRAY(BYTES(1, 0, 1, 1), TEXT("ab"), NUMBERS(0, 1, 2)), 4, 2, 2, 1);
    AFTER(BYTES(1, 0, 1, 0), S(0, 0), S(1, 0), TEXT("a"));
    /* Packed in cell order; longer lists keep what is beyond. The mask form says nothing. */
    lend(7, 5, 9);
    MAKES(dpx_packed(r(1)), 3, ARRAY(BYTES(1, 1, 1), TEXT("abc"), NUMBERS(0, 1, 1, 3)), 3, 3, 3, 3);
    AFTER(BYTES(1, 1, 1), S(0, 0, 1), S(1, 0, 2), TEXT("abc"));
    lend(0, 1, 0);
    MAKES(r(0), 1, ARRAY(NO, NONE, NUMBERS(0, 0)), 0, 1, 1, 0);
    AFTER(NO, S(0), S(0), NONE);
    release();

    /* 6, each list one short. */
    lend(1, 2, 2);
    NOT_MADE(r(1), 2, ARRAY(BYTES(1, 1), TEXT("ab"), NUMBERS(0, 1, 2)), DPX_OUTPUT);
    lend(2, 1, 2);
    NOT_MADE(r(1), 2, ARRAY(BYTES(1, 1), TEXT("ab"), NUMBERS(0, 1, 2)), DPX_OUTPUT);
    lend(2, 2, 1);
    NOT_MADE(r(1), 2, ARRAY(BYTES(1, 1), TEXT("ab"), NUMBERS(0, 1, 2)), DPX_OUTPUT);
    lend(2, 2, 2);
    t.lengths_len = 1;
    NOT_MADE(r(1), 2, ARRAY(BYTES(1, 1), TEXT("ab"), NUMBERS(0, 1, 2)), DPX_OUTPUT);
    release();

    /* 1 before 2 before 4 before 5 before 6. */
    lend(0, 0, 0);
    NOT_MADE(dpx_fixed(0, 1, DPX_LITTLE), 0, ARRAY(NO, TEXT("a"), NONE), DPX_KIND);
    NOT_MADE(r(5), 0, ARRAY(NO, NONE, NONE), DPX_KIND);
    NOT_MADE(dpx_ragged(0, 5, DPX_START), 0, ARRAY(NO, NONE, NONE), DPX_KIND);
    NOT_MADE(r(0), 0, ARRAY(NO, TEXT("a"), NONE), DPX_SHAPE);
    NOT_MADE(r(0), 65537, ARRAY(NO, TEXT("a"), NONE), DPX_SHAPE);
    NOT_MADE(r(0), (UINT64_C(1) << 32) + 1, ARRAY(NO, TEXT("a"), NUMBERS(0, 1)), DPX_SHAPE);
    NOT_MADE(r(0), 1, ARRAY(BYTES(1), TEXT("a"), NUMBERS(0, 1)), DPX_CONTENT);
    NOT_MADE(r(1), 1, ARRAY(BYTES(2), TEXT("a"), NUMBERS(0, 1)), DPX_CONTENT);
    NOT_MADE(r(0), 1, ARRAY(NO, TEXT("a"), NUMBERS(1, 1)), DPX_CONTENT);
    NOT_MADE(r(0), 1, ARRAY(NO, TEXT("a"), NUMBERS(0, 1)), DPX_OUTPUT);
    release();
}

/* ---------------------------------------------------------------------------------------------------------- read */

/* Read out: masks, values and offsets into lists of exactly these lengths, or one element short. */
static void reads(dpx_kind kind, uint64_t cells, const uint8_t *masks, size_t masks_len, const uint8_t *values, size_t values_len,
                  const uint64_t *offsets, size_t offsets_len, int line)
{
    const size_t needs[3] = {masks_len, values_len, offsets_len};
    size_t i;
    for (i = 0; i <= 3; i++) {
        const size_t a = masks_len - (i == 1), b = values_len - (i == 2), c = offsets_len - (i == 3);
        uint8_t *m, *v, *o;
        uint32_t answer;
        if (i > 0 && needs[i - 1] == 0)
            continue;
        m = guarded(a);
        v = guarded(b);
        o = guarded(c * 8);
        memset(t.named, FILL, sizeof t.named);
        answer = dpx_table_read(kind, cells, TABLE, m, a, v, b, (uint64_t *)(void *)o, c, t.named);
        check_answer(answer, i == 0 ? DPX_OK : DPX_OUTPUT, "dpx_table_read", line);
        if (i == 0) {
            check_named(a, b, c, FILL64, line);
            check_is(m, masks, masks_len, "masks read out", line);
            check_is(v, values, values_len, "values read out", line);
            check_is(o, offsets, offsets_len * 8, "offsets read out", line);
            check(kept(m, a, a) && kept(v, b, b) && kept(o, c * 8, c * 8), "guards", line);
        } else {
            check_named(FILL64, FILL64, FILL64, FILL64, line);
            check(kept(m, 0, a) && kept(v, 0, b) && kept(o, 0, c * 8), "a refusal changes nothing", line);
        }
    }
}

#define READS(...) reads(__VA_ARGS__, __LINE__)
#define NOT_READ(kind, cells, wanted) ANSWERS(dpx_table_read(kind, cells, TABLE, NONE, NONE, NONE, t.named), wanted)

static void test_read(void)
{
    /* In cell order, whatever lies where; the table stays. */
    HOLD(NO, S(3, 1, 0), S(1, 2, 1), TEXT("zyyx."));
    READS(r(0), 3, NO, TEXT("xyyz"), NUMBERS(0, 1, 3, 4));
    AFTER(NO, S(3, 1, 0), S(1, 2, 1), TEXT("zyyx."));
    HOLD(BYTES(1, 1, 0, 1), S(0, 2), S(0, 1), TEXT("..q"));
    READS(r(2), 2, BYTES(1, 1, 0, 1), TEXT("q"), NUMBERS(0, 0, 1));
    HOLD(NO, S(0), S(0), NONE);
    READS(r(0), 1, NO, NONE, NUMBERS(0, 0));
    NOT_READ(dpx_fixed(0, 1, DPX_BIG), 0, DPX_KIND);
    NOT_READ(r(0), 0, DPX_SHAPE);
    NOT_READ(r(0), 2, DPX_CONTENT);
    NOT_READ(r(0), 1, DPX_OUTPUT);
    release();
}

/* ----------------------------------------------------------------------------------------------------------- set */

static void test_set(void)
{
    /* After the highest-lying cell; the old bytes are given up first; no gap is used again; nothing is cleared. */
    HOLD(NO, S(3, 1, 0), S(1, 2, 1), TEXT("zyyx.."));
    SETS(r(0), 3, 2, NO, TEXT("w"));
    AFTER(NO, S(3, 1, 4), S(1, 2, 1), TEXT("zyyxw."));
    HOLD(NO, S(0, 1), S(1, 1), TEXT("xy"));
    SETS(r(0), 2, 1, NO, TEXT("b"));
    AFTER(NO, S(0, 1), S(1, 1), TEXT("xb"));
    HOLD(NO, S(0), S(1), TEXT("x"));
    SETS(r(0), 1, 0, NO, TEXT("y"));
    AFTER(NO, S(0), S(1), TEXT("y"));
    HOLD(NO, S(0, 1), S(1, 1), TEXT("xy."));
    SETS(r(0), 2, 0, NO, TEXT("x"));
    AFTER(NO, S(2, 1), S(1, 1), TEXT("xyx"));
    /* Packed beforehand, as they lie; not for a value of no bytes. */
    HOLD(NO, S(0, 1), S(1, 1), TEXT("xy.."));
    SETS(r(0), 2, 0, NO, TEXT("abc"));
    AFTER(NO, S(1, 0), S(3, 1), TEXT("yabc"));
    HOLD(NO, S(3, 0, 1), S(2, 0, 1), TEXT(".c.aa"));
    SETS(r(0), 3, 1, NO, TEXT("bb"));
    AFTER(NO, S(1, 3, 0), S(2, 2, 1), TEXT("caabb"));
    HOLD(NO, S(1, 0), S(1, 1), TEXT("xy"));
    SETS(r(0), 2, 1, NO, NONE);
    AFTER(NO, S(1, 0), S(1, 0), TEXT("xy"));
    release();

    /* What an unset level hides is dropped, and does not count. Masks are planes. */
    HOLD(BYTES(1), S(0), S(1), TEXT("x"));
    SETS(r(1), 1, 0, BYTES(0), TEXT("abc"));
    AFTER(BYTES(0), S(0), S(0), TEXT("x"));
    HOLD(BYTES(1, 1), S(0), S(1), TEXT("x"));
    SETS(r(2), 1, 0, BYTES(0, 1), NONE);
    AFTER(BYTES(0, 0), S(0), S(0), TEXT("x"));
    HOLD(BYTES(0, 0, 0, 0), S(0, 0), S(0, 0), TEXT("."));
    SETS(r(2), 2, 1, BYTES(1, 1), TEXT("v"));
    AFTER(BYTES(0, 1, 0, 1), S(0, 0), S(0, 1), TEXT("v"));
    release();

    /* 1 before 2 before 4 before 15 before 16; a refused setting leaves the packing undone. */
    HOLD(BYTES(1), S(0), S(0), NONE);
    NOT_SET(dpx_fixed(1, 1, DPX_LITTLE), 0, 1, BYTES(2), TEXT("a"), DPX_KIND);
    NOT_SET(r(1), 0, 1, BYTES(2), TEXT("a"), DPX_SHAPE);
    NOT_SET(r(1), 65537, 1, BYTES(2), TEXT("a"), DPX_SHAPE);
    NOT_SET(r(1), 2, 1, BYTES(1), TEXT("a"), DPX_CONTENT);
    NOT_SET(r(1), 1, 1, BYTES(2), TEXT("a"), DPX_CONTENT);
    NOT_SET(r(1), 1, 1, NO, TEXT("a"), DPX_CONTENT);
    NOT_SET(r(1), 1, 1, BYTES(1, 1), TEXT("a"), DPX_CONTENT);
    NOT_SET(r(1), 1, 1, BYTES(1), TEXT("a"), DPX_CELL);
    NOT_SET(r(1), 1, UINT64_C(1) << 32, BYTES(1), NONE, DPX_CELL);
    NOT_SET(r(1), 1, UINT64_MAX, BYTES(0), NONE, DPX_CELL);
    NOT_SET(r(1), 1, 0, BYTES(1), TEXT("a"), DPX_FULL);
    AFTER(BYTES(1), S(0), S(0), NONE);
    HOLD(BYTES(1, 1), S(0), S(0), NONE);
    NOT_SET(r(2), 1, 0, BYTES(0, 2), NONE, DPX_CONTENT);
    AFTER(BYTES(1, 1), S(0), S(0), NONE);
    HOLD(NO, S(1, 0), S(1, 0), TEXT(".a"));
    NOT_SET(r(0), 2, 1, NO, TEXT("bb"), DPX_FULL);
    AFTER(NO, S(1, 0), S(1, 0), TEXT(".a"));
    release();
}

/* ---------------------------------------------------------------------------------------------------------- pack */

static void test_pack(void)
{
    HOLD(NO, S(1), S(3), TEXT(".abc"));
    PACKS(r(0), 1, 1, 1);
    AFTER(NO, S(0), S(3), TEXT("abcc"));
    HOLD(NO, S(0, 2), S(1, 1), TEXT("a.b"));
    PACKS(r(0), 2, 1, 1);
    AFTER(NO, S(0, 1), S(1, 1), TEXT("abb"));
    HOLD(NO, S(3, 1), S(1, 1), TEXT(".b.a"));
    PACKS(r(0), 2, 1, 1);
    AFTER(NO, S(3, 0), S(1, 1), TEXT("bb.a"));
    PACKS(r(0), 2, 1, 1);
    AFTER(NO, S(1, 0), S(1, 1), TEXT("ba.a"));
    PACKS(r(0), 2, DPX_MAX_MOVES, 0);
    AFTER(NO, S(1, 0), S(1, 1), TEXT("ba.a"));
    release();

    HOLD(NO, S(1), S(1), TEXT(".a"));
    NOT_PACKED(r(0), 0, 0, DPX_KIND);
    NOT_PACKED(r(0), 0, DPX_MAX_MOVES + 1, DPX_KIND);
    NOT_PACKED(r(0), 1, (UINT64_C(1) << 32) + 1, DPX_KIND);
    NOT_PACKED(dpx_fixed(0, 1, DPX_LITTLE), 0, 1, DPX_KIND);
    NOT_PACKED(r(0), 0, 1, DPX_SHAPE);
    NOT_PACKED(r(0), 65537, 1, DPX_SHAPE);
    NOT_PACKED(r(0), 2, 1, DPX_CONTENT);
    NOT_PACKED(r(1), 1, 1, DPX_CONTENT);
    AFTER(NO, S(1), S(1), TEXT(".a"));
    release();
}

/* Each rule of a table broken alone: 4 in all calls, and nothing changes. */
#define BROKEN(kind, cells, masks, starts, lengths, store)              \
    do {                                                                \
        HOLD(masks, starts, lengths, store);                            \
        NOT_READ(kind, cells, DPX_CONTENT);                             \
        NOT_SET(kind, cells, 0, ARRAY(any, (kind).depth), TEXT("k"), DPX_CONTENT); \
        NOT_PACKED(kind, cells, 1, DPX_CONTENT);                        \
        AFTER(masks, starts, lengths, store);                           \
        release();                                                      \
    } while (0)

static void test_rules(void)
{
    static const uint8_t any[2] = {1, 1};
    BROKEN(r(1), 1, ARRAY(BYTES(0)), ARRAY(S(0)), ARRAY(S(1)), ARRAY(TEXT("x")));
    BROKEN(r(1), 1, ARRAY(BYTES(2)), ARRAY(S(0)), ARRAY(S(0)), ARRAY(TEXT("x")));
    BROKEN(r(2), 1, ARRAY(BYTES(0, 1)), ARRAY(S(0)), ARRAY(S(0)), ARRAY(TEXT("x")));
    BROKEN(r(2), 1, ARRAY(BYTES(1, 0)), ARRAY(S(0)), ARRAY(S(1)), ARRAY(TEXT("x")));
    BROKEN(r(1), 1, ARRAY(BYTES(1, 1)), ARRAY(S(0)), ARRAY(S(0)), ARRAY(TEXT("x")));
    BROKEN(r(0), 1, ARRAY(NONE), ARRAY(S(1)), ARRAY(S(0)), ARRAY(TEXT("x")));
    BROKEN(r(0), 1, ARRAY(NONE), ARRAY(S(1)), ARRAY(S(1)), ARRAY(TEXT("x")));
    BROKEN(r(0), 1, ARRAY(NONE), ARRAY(S(0)), ARRAY(S(2)), ARRAY(TEXT("x")));
    BROKEN(r(0), 1, ARRAY(NONE), ARRAY(S(UINT64_MAX)), ARRAY(S(1)), ARRAY(TEXT("x")));
    BROKEN(r(0), 1, ARRAY(NONE), ARRAY(S(1)), ARRAY(S(UINT64_MAX)), ARRAY(TEXT("x")));
    BROKEN(r(0), 2, ARRAY(NONE), ARRAY(S(0, 1)), ARRAY(S(2, 1)), ARRAY(TEXT("xy")));
    BROKEN(r(0), 2, ARRAY(NONE), ARRAY(S(1, 0)), ARRAY(S(1, 2)), ARRAY(TEXT("xy")));
    BROKEN(r(0), 2, ARRAY(NONE), ARRAY(S(0, 0)), ARRAY(S(1, 1)), ARRAY(TEXT("xy")));
    BROKEN(r(0), 2, ARRAY(NONE), ARRAY(S(0, 0)), ARRAY(S(UINT64_C(1) << 63, UINT64_C(1) << 63)), ARRAY(NONE));
    BROKEN(r(0), 3, ARRAY(NONE), ARRAY(S(0, 2, 1)), ARRAY(S(2, 1, 1)), ARRAY(TEXT("xyz")));
    BROKEN(r(0), 1, ARRAY(NONE), ARRAY(S(0, 0)), ARRAY(S(0)), ARRAY(TEXT("x")));
    BROKEN(r(0), 1, ARRAY(NONE), ARRAY(S(0)), ARRAY(S(0, 0)), ARRAY(TEXT("x")));
    BROKEN(r(0), 1, ARRAY(NONE), ARRAY(NONE), ARRAY(NONE), ARRAY(TEXT("x")));
}

/* The longest store, and one byte more: 5, after every 4 and before 15. */
static void test_store(void)
{
    const size_t size = DPX_MAX_STORE;
    uint8_t *store = block(size + 1);
    uint64_t starts[1] = {DPX_MAX_STORE - 1}, lengths[1] = {1}, named[4];
    uint8_t value[1] = {1};
    uint64_t offsets[2] = {0, 0};
    memset(store, FILL, size + 1);
    ANSWERS(dpx_table_pack(r(0), 1, NONE, starts, 1, lengths, 1, store, size + 1, 1, named), DPX_SIZE);
    ANSWERS(dpx_table_read(r(0), 1, NONE, starts, 1, lengths, 1, store, size + 1, NONE, value, 1, offsets, 2, named), DPX_SIZE);
    ANSWERS(dpx_table_set(r(0), 1, NONE, starts, 1, lengths, 1, store, size + 1, 1, NONE, NONE), DPX_SIZE);
    ANSWERS(dpx_table_preview(r(0), 1, NONE, starts, 1, lengths, 1, store, size + 1, 1, NONE, NONE, named), DPX_SIZE);
    ANSWERS(dpx_table_preview(r(0), 1, NONE, starts, 1, lengths, 1, store, size + 1, 1, value, 1, NONE, named), DPX_CONTENT);
    ANSWERS(dpx_table_set(r(0), 1, NONE, starts, 1, lengths, 1, store, size + 1, 1, value, 1, NONE), DPX_CONTENT);
    ANSWERS(dpx_table_make(r(0), 1, NONE, value, 1, offsets, 2, NONE, starts, 1, lengths, 1, store, size + 1, named), DPX_CONTENT);
    ANSWERS(dpx_table_make(r(0), 1, NONE, NONE, offsets, 2, NONE, starts, 1, lengths, 1, store, size + 1, named), DPX_SIZE);
    CHECK(starts[0] == DPX_MAX_STORE - 1 && lengths[0] == 1);
    store[size - 1] = 'z';
    ANSWERS(dpx_table_preview(r(0), 1, NONE, starts, 1, lengths, 1, store, size, 0, NONE, store, size, named), DPX_OK);
    CHECK(named[0] == size && named[1] == 0 && starts[0] == size - 1 && lengths[0] == 1);
    ANSWERS(dpx_table_pack(r(0), 1, NONE, starts, 1, lengths, 1, store, size, 1, named), DPX_OK);
    CHECK(named[0] == 1 && starts[0] == 0 && store[0] == 'z' && store[size - 1] == 'z');
    ANSWERS(dpx_table_set(r(0), 1, NONE, starts, 1, lengths, 1, store, size, 0, NONE, TEXT("y")), DPX_OK);
    CHECK(starts[0] == 0 && store[0] == 'y' && store[1] == FILL);
    release();
}

/* As many cells as there can be: made of a load, edited again and again, packed call by call. What is read out is what was set. */
static void test_large(size_t cells)
{
    const dpx_kind kind = r(1);
    const uint64_t shape[1] = {cells};
    const size_t room = 8 * cells;
    uint8_t *masks = block(cells), *values = block(room), *store = block(room), *out = block(cells), *back = block(room);
    uint64_t *offsets = block(8 * (cells + 1)), *starts = block(8 * cells), *lengths = block(8 * cells), *again = block(8 * (cells + 1));
    uint64_t named[4], moved = 0, sum = 0, previewed[2] = {0, 0};
    uint32_t state = 1;
    size_t i, calls = 0;

    ANSWERS(dpx_generate(kind, shape, 1, 7, masks, cells, values, room, offsets, cells + 1, named), DPX_OK);
    ANSWERS(dpx_table_make(kind, cells, masks, cells, values, named[1], offsets, cells + 1, out, cells, starts, cells, lengths, cells, store,
                           room, named),
            DPX_OK);
    CHECK(memcmp(out, masks, cells) == 0 && named[3] == offsets[cells]);
    for (i = 0; i < 200; i++) {
        uint8_t value[8], mask[1];
        const size_t cell = (state >> 8) % cells, length = (state >> 3) % 9;
        dpx_cell set;
        memset(value, (int)(i & 255), sizeof value);
        mask[0] = state >> 31 == 0;
        ANSWERS(dpx_table_preview(kind, cells, out, cells, starts, cells, lengths, cells, store, room, cell, mask, 1, value, length, previewed),
                DPX_OK);
        ANSWERS(dpx_table_set(kind, cells, out, cells, starts, cells, lengths, cells, store, room, cell, mask, 1, value, length), DPX_OK);
        set = dpx_table_cell(kind, cells, out, starts, lengths, store, cell);
        CHECK(set.null_level == (mask[0] ? 0 : 1) && set.length == (mask[0] ? length : 0) && memcmp(set.value, value, set.length) == 0);
        state = state * 1664525u + 1013904223u;
    }
    ANSWERS(dpx_table_read(kind, cells, out, cells, starts, cells, lengths, cells, store, room, masks, cells, values, room, offsets, cells + 1,
                           named),
            DPX_OK);
    do {
        ANSWERS(dpx_table_pack(kind, cells, out, cells, starts, cells, lengths, cells, store, room, 256, named), DPX_OK);
        moved += named[0];
        calls++;
    } while (named[0] != 0 && calls < cells);
    CHECK(calls == (moved + 255) / 256 + 1);
    for (i = 0; i < cells; i++)
        sum += lengths[i];
    /* What was said before the last setting. */
    CHECK(previewed[0] == sum && previewed[1] == moved);
    ANSWERS(dpx_table_read(kind, cells, out, cells, starts, cells, lengths, cells, store, room, masks, cells, back, room, again, cells + 1,
                           named),
            DPX_OK);
    CHECK(named[1] == sum && memcmp(values, back, sum) == 0 && memcmp(offsets, again, 8 * (cells + 1)) == 0);
    release();
}

int main(void)
{
    test_make();
    test_read();
    test_preview();
    test_set();
    test_pack();
    test_rules();
    test_store();
    test_large(64);
    test_large(2048);
    test_large(2049);
    test_large(DPX_MAX_CELLS);
    printf("working tables from C: %lu checks, %lu failed\n", checks, failures);
    return failures == 0 ? 0 : 1;
}
