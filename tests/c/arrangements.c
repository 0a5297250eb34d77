/*
 * Small arrangements from C: the lines of docs/SPEC.md, S10.52 to S10.54, every set of faults, and what stays untouched. Then each
 * number of each depth and count: what is given is its row of oracle/data/arrangements.txt, which a script made that knows the rule
 * alone; stored in every form it is read again, and made a working table it is read out, as it was.
 */
#include "faults.h"
#include "held.h"
#include "outputs.h"

static void test_lines(void)
{
    lend(2, 3, 2);
    GIVES(dpx_arrangement(2, 1, 0, OUT3), BYTES(0, 0), NONE, NUMBERS(0, 0));
    GIVES(dpx_arrangement(2, 1, 1, OUT3), BYTES(1, 0), NONE, NUMBERS(0, 0));
    GIVES(dpx_arrangement(2, 1, 2, OUT3), BYTES(1, 1), NONE, NUMBERS(0, 0));
    GIVES(dpx_arrangement(2, 1, 5, OUT3), BYTES(1, 1), BYTES(0, 0, 0), NUMBERS(0, 3));
    lend(4, 0, 3);
    GIVES(dpx_arrangement(2, 2, 8, OUT3), BYTES(1, 1, 0, 1), NONE, NUMBERS(0, 0, 0));
    lend(0, 0, 5);
    GIVES(dpx_arrangement(0, 4, 0, OUT3), NONE, NONE, NUMBERS(0, 0, 0, 0, 0));
    lend(4, 12, 5);
    GIVES(dpx_arrangement(1, 4, 624, OUT3), BYTES(1, 1, 1, 1), BYTES(0, 0, 0, 0, 0, 0, 0, 0, 0, 0, 0, 0), NUMBERS(0, 3, 6, 9, 12));
    /* What is beyond is kept; a masks output that depth 0 does not use. */
    lend(3, 3, 3);
    GIVES(dpx_arrangement(1, 2, 13, OUT3), BYTES(1, 1), BYTES(0, 0, 0), NUMBERS(0, 1, 3));
    lend(3, 3, 3);
    GIVES(dpx_arrangement(0, 1, 1, OUT3), NONE, BYTES(0), NUMBERS(0, 1));
    release();

    lend(3, 3, 3);
    REFUSED(dpx_arrangement(3, 1, 99, OUT3), DPX_KIND);
    REFUSED(dpx_arrangement(0, 0, 0, OUT3), DPX_KIND);
    REFUSED(dpx_arrangement(0, 5, 0, OUT3), DPX_KIND);
    REFUSED(dpx_arrangement(0, 2, 15, OUT3), DPX_OUTPUT);
    lend(0, 0, 0);
    REFUSED(dpx_arrangement(0, 1, 4, OUT3), DPX_ARRANGEMENT);
    release();
}

/* The first fault's refusal, and nothing changes. A number that is wrong is one more than the last, or right when it is cut. */
static void test_faults(void)
{
    static const uint32_t order[] = {DPX_KIND, DPX_KIND, DPX_ARRANGEMENT, DPX_OUTPUT, DPX_OUTPUT, DPX_OUTPUT};
    const uint64_t top = UINT64_C(1) << 32, half = UINT64_C(1) << 63;
    const uint64_t depths[] = {3, 4, 5, 256, 258, top, top + 2, half, half + 2, UINT64_MAX};
    const uint64_t counts[] = {0, 5, 6, 256, 258, top, top + 2, half, half + 2, UINT64_MAX};
    const uint64_t numbers[] = {36, 37, 1296, 256, 256 + 22, top, top + 22, half, half + 22, UINT64_MAX};
    size_t i, faults;

    for (faults = 0; faults < 64; faults++)
        for (i = 0; i < sizeof depths / sizeof depths[0]; i++) {
            /* 22 is 3 and 4 in base 6: one byte, and two. */
            const uint64_t depth = faults & 1 ? depths[i] : 2, cells = faults & 2 ? counts[i] : 2, number = faults & 4 ? numbers[i] : 22;
            lend(faults & 8 ? 3 : 4, faults & 16 ? 2 : 3, faults & 32 ? 2 : 3);
            check_answer(dpx_arrangement(depth, cells, number, OUT3), first_of(order, faults), "dpx_arrangement", __LINE__);
            if (faults != 0)
                check_untouched(__LINE__);
            else
                check_gives(BYTES(1, 1, 1, 1), BYTES(0, 0, 0), NUMBERS(0, 1, 3), __LINE__);
            release();
        }
}

/* Depth, cells and number, and what is given of them. */
struct row {
    uint64_t depth, cells, number, offsets[DPX_MAX_ARRANGED_CELLS + 1];
    size_t masks_len, values_len, offsets_len;
    uint8_t masks[DPX_MAX_ARRANGED_DEPTH * DPX_MAX_ARRANGED_CELLS], values[3 * DPX_MAX_ARRANGED_CELLS];
};

static uint64_t word(FILE *rows)
{
    uint64_t number = 0;
    if (fscanf(rows, "%" SCNu64, &number) != 1) {
        printf("FAILED: oracle/data/arrangements.txt is not to be read\n");
        exit(2);
    }
    return number;
}

/* The next row; behind the last there is none. A mask is a number of a byte for each cell of each level, in hex. */
static int next_row(FILE *rows, struct row *row)
{
    char comment[256];
    uint64_t count, i;
    int begin;
    while ((begin = fgetc(rows)) == '#')
        if (fgets(comment, sizeof comment, rows) == NULL)
            return 0;
    if (begin == EOF)
        return 0;
    ungetc(begin, rows);
    memset(row, 0, sizeof *row);
    row->depth = word(rows);
    row->cells = word(rows);
    row->number = word(rows);
    row->masks_len = word(rows);
    for (i = 0; i < row->masks_len; i++) {
        unsigned byte = 2;
        if (fscanf(rows, i == 0 ? " %2x" : "%2x", &byte) != 1 || row->masks_len > sizeof row->masks)
            exit(2);
        row->masks[i] = (uint8_t)byte;
    }
    count = word(rows);
    for (i = 0; i < count && count <= DPX_MAX_ARRANGED_CELLS; i++)
        row->offsets[i + 1] = row->offsets[i] + word(rows);
    row->offsets_len = count + 1;
    row->values_len = row->offsets[count];
    return fgetc(rows) == '\n' && row->values_len <= sizeof row->values;
}

#define ROW row->masks, row->masks_len, row->values, row->values_len, row->offsets, row->offsets_len

static void arranged(const struct row *row, size_t masks, size_t values, size_t offsets)
{
    const int enough = masks >= row->masks_len && values >= row->values_len && offsets >= row->offsets_len;
    lend(masks, values, offsets);
    ANSWERS(dpx_arrangement(row->depth, row->cells, row->number, OUT3), enough ? DPX_OK : DPX_OUTPUT);
    if (enough)
        check_gives(ROW, __LINE__);
    else
        check_untouched(__LINE__);
}

/* Outputs of the exact lengths, longer ones, each one short, and none. */
static void every_room(const struct row *row)
{
    const size_t masks = row->masks_len, values = row->values_len, offsets = row->offsets_len;
    arranged(row, masks, values, offsets);
    arranged(row, masks + 3, values + 3, offsets + 3);
    if (masks != 0)
        arranged(row, masks - 1, values, offsets);
    if (values != 0)
        arranged(row, masks, values - 1, offsets);
    arranged(row, masks, values, offsets - 1);
    arranged(row, 0, 0, 0);
}

/* Stored, read, and stored again. */
static void through_stored(const struct row *row, dpx_kind kind)
{
    const uint64_t shape[1] = {row->cells};
    const size_t room = dpx_stored_room(kind, row->cells, row->values_len);
    uint8_t *stored = guarded(room), *again;
    uint64_t length = 0, length_again = 0;
    ANSWERS(dpx_encode(kind, shape, 1, ROW, stored, room, &length), DPX_OK);
    CHECK(kept(stored, length, room));
    lend(row->masks_len, row->values_len, row->offsets_len);
    GIVES(dpx_decode(kind, shape, 1, in(stored, length), length, OUT3), ROW);
    again = guarded(length);
    ANSWERS(dpx_encode(kind, shape, 1, out.masks, row->masks_len, out.values, row->values_len, out.offsets, row->offsets_len, again, length,
                       &length_again),
            DPX_OK);
    CHECK(length_again == length);
    check_is(again, stored, length, "stored bytes", __LINE__);
}

/* Made a working table, with just the room for it: cells lie end to end. Read out, it is the same. */
static void through_table(const struct row *row)
{
    const size_t cells = row->cells;
    uint64_t starts[DPX_MAX_ARRANGED_CELLS], lengths[DPX_MAX_ARRANGED_CELLS];
    size_t i;
    for (i = 0; i < cells; i++) {
        lengths[i] = row->offsets[i + 1] - row->offsets[i];
        starts[i] = lengths[i] != 0 ? row->offsets[i] : 0;
    }
    HOLD(NULL, row->masks_len, NULL, cells, NULL, cells, NULL, row->values_len);
    ANSWERS(dpx_table_make(r(row->depth), cells, ROW, TABLE, t.named), DPX_OK);
    AFTER(row->masks, row->masks_len, starts, cells, lengths, cells, row->values, row->values_len);
    lend(row->masks_len, row->values_len, row->offsets_len);
    GIVES(dpx_table_read(r(row->depth), cells, TABLE, OUT3), ROW);
}

static void test_rows(void)
{
    FILE *rows = fopen("oracle/data/arrangements.txt", "r");
    uint64_t depth, cells, number, width;
    struct row row;
    size_t all = 0;

    if (rows == NULL) {
        printf("FAILED: oracle/data/arrangements.txt is not there; run from the folder of the repository\n");
        exit(2);
    }
    for (depth = 0; depth <= DPX_MAX_ARRANGED_DEPTH; depth++)
        for (cells = 1; cells <= DPX_MAX_ARRANGED_CELLS; cells++)
            for (number = 0; number < dpx_arrangement_count(depth, cells); number++, all++) {
                CHECK(next_row(rows, &row) && row.depth == depth && row.cells == cells && row.number == number);
                every_room(&row);
                release();
                for (width = 4; width <= 8; width += 4) {
                    through_stored(&row, dpx_ragged(depth, width, DPX_START));
                    through_stored(&row, dpx_ragged(depth, width, DPX_END));
                    through_stored(&row, dpx_packed(dpx_ragged(depth, width, DPX_START)));
                    through_stored(&row, dpx_packed(dpx_ragged(depth, width, DPX_END)));
                }
                through_table(&row);
                release();
            }
    CHECK(all == 2674 && !next_row(rows, &row));
    fclose(rows);
}

int main(void)
{
    test_lines();
    test_faults();
    test_rows();
    release();
    printf("arrangements: %lu checks, %lu failed\n", checks, failures);
    return failures == 0 ? 0 : 1;
}
