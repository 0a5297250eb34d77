/*
 * Durpaxeta: tables of optional and variable-length cells in one checked byte layout.
 *
 * Link with libdurpaxeta.a (x86-64). Nothing else is needed but memcpy, memmove, memset and memcmp, as of any C library.
 * The archive has the twenty calls. All else is static inline here: kinds, answers in words, room for outputs, cells.
 *
 * A TABLE is a kind, a shape and its content.
 *
 *   kind     dpx_kind, below: how many mask levels, how stored masks lie, and fixed or ragged values.
 *   shape    1 to 4 sides, each at least 1, at most 65,536 cells. Cells are numbered row by row, the last side fastest.
 *   masks    one plane for each level, outermost first, one byte a cell, end to end: depth * cells bytes.
 *            00 is null, 01 is set; there is no other mask byte, below a null neither. A cell that is null at one level
 *            has no value. Stored masks may be packed, a bit a cell; these planes never are.
 *   values   the value bytes. Fixed: cells * size bytes. Ragged: all values, one after the other.
 *   offsets  ragged only: cells + 1 numbers. Cell i has the value bytes from offsets[i] up to offsets[i + 1].
 *            The first is 0, they never fall, and the last is the count of value bytes: every value byte is in a cell.
 *            A fixed kind has none.
 *
 * Null and empty are two things. Null: a mask byte is 00. Empty: all mask bytes are 01, and the value has no bytes.
 *
 * Masks come before values, and values before offsets, in every call. A rights plane comes before all of them.
 *
 * A WORKING TABLE is a ragged table whose cells are edited in memory: dpx_table_make, dpx_table_set, dpx_table_preview,
 * dpx_table_pack, dpx_table_read. The caller holds its four lists, and hands all of them to each call.
 *
 *   masks         planes as above: depth * cells bytes.
 *   starts        one number a cell: where its bytes begin in the store. 0 where it has none.
 *   cell_lengths  one number a cell: how many they are. 0 where the cell is null.
 *   store         at most 16,777,216 bytes. No two cells share one; those in no cell may be anything.
 *
 * It has a count of cells, 1 to 65,536, and no shape. Of its kind the depth counts alone. It is always in rest form: below
 * a null mask bytes are 00, and a cell with a null has no bytes. Cells lie in the store in any order; the order in which
 * they lie is that of their starts. Nothing is ever cleared: bytes that a cell had before stay in the store until others
 * are put there. Who hands a store on hands them on, too; dpx_table_read gives the cells alone.
 *
 * A LIVE TABLE is a ragged table of depth 0 that leaves the older form chunk by chunk, while it is in use: dpx_migrate_step
 * moves a chunk, dpx_migrate_extract gives cells. The caller holds all of it, and hands all of it to each call.
 *
 *   subsets        the cells of each chunk, as for dpx_merge: together they hold each cell of the shape once.
 *   old_lengths    one number a chunk: the bytes of its old string, of a moved chunk too. They sum to old_len.
 *   old            the old strings end to end, each as dpx_decode_interleaved reads it. Nothing is ever written there.
 *   moved          how many chunks are moved. They are the first ones of the list: chunks are moved in its order.
 *   moved_lengths  one number a chunk: the bytes of its string in the area. What stands there of old chunks is not read.
 *   area           the moved strings end to end from its begin, each as dpx_encode writes dpx_ragged(0, 8, DPX_START). What
 *                  lies behind them is not read.
 *
 * Each call checks all of it first, and reads every chunk, whatever it is asked for: a table with one chunk that cannot be read
 * is refused as a whole. While nothing but steps changes the table, dpx_migrate_extract answers the same before, between and
 * after them, with the same bytes. The area may be exchanged for another one that begins with the same moved strings.
 *
 * GUESTS. A rights plane says which cells a guest may see: one byte a cell, 01 where it shows the cell, 00 where it hides it;
 * there is no other. Each guest has its own; it is part of no array and no table. dpx_guest_read gives a guest what its plane
 * shows of an array; dpx_guest_edit sets a cell of a working table that it shows. Only a mask can hide a cell: both calls
 * refuse a kind of depth 0, with 17. Of two planes, byte by byte `and` shows what both show. Where an array is cut or merged,
 * so is its plane: by dpx_extract and dpx_merge, as the values of an array of the kind dpx_fixed(0, 1, DPX_LITTLE).
 *
 * The host keeps arrays, tables and planes, and makes the calls. A guest is given the answer and `lengths`, and of the outputs
 * of dpx_guest_read so many elements as these say. Nothing else is meant for it:
 *
 *   outputs       Elements beyond those lengths keep what they held. Where a guest has the whole memory, lend one that is
 *                 fresh, or cleared, and not one that another guest's cells were in.
 *   cells         The mask says first whether there is a value. A cell that is hidden comes out as one that is null at level 1
 *                 does, and dpx_get_cell answers both alike.
 *   working table The four lists are the host's: starts, lengths and store tell of every cell. For a guest, dpx_table_read
 *                 reads the table into memory of the host, and dpx_guest_read that array into the guest's.
 *   previews      dpx_table_preview takes no plane, and its two numbers are of all cells.
 *
 * Of a hidden cell of an array that keeps the rules a read tells nothing, by 6 and `lengths` neither. Two things are told:
 * whether array or table keep the rules, for 4 and 5 look at every cell; and by 16 of an edit how full the store is. Nothing
 * is promised of how long a call takes.
 *
 * SLICES. A slice is a pointer and a count, in this order. The count is in elements: bytes for rights, masks, values, stores,
 * stored bytes and areas, 64-bit numbers for shape, subset, offsets, cells, starts and lists of lengths. NULL with 0 is an
 * empty slice.
 * `lengths` is a pointer to as many numbers as its brackets say; it must not be NULL.
 *
 * SUBSETS. A subset (a box of cells) is one slice: all starts, then all lengths. With two sides: start 0, start 1,
 * length 0, length 1. A list of subsets lays them end to end.
 *
 * ANSWERS. Each call answers 0 (DPX_OK) or one refusal number. The refusals of a call are listed in the order in
 * which they are tested; the first one met is the answer.
 *
 *   On 0     `lengths` holds how many elements of each output were written, in the order masks, values, offsets; of a
 *            table in the order masks, starts, cell_lengths, store. Of a call that writes no such output it holds what that
 *            call says.
 *            Elements of an output beyond its length keep what they held.
 *   Refused  no byte of any output changes, `lengths` included.
 *
 * An output that the kind does not use (masks at depth 0, offsets of a fixed kind) may have any length, 0 too. It is not
 * written, and its length is 0.
 *
 * MEMORY. The caller owns all of it: no heap is used and no pointer is kept. Outputs, and what is edited in place, must
 * overlap neither each other nor an input nor `lengths`. Inputs may overlap each other. Pointers to numbers must be
 * aligned for uint64_t. Value bytes are touched only where a call copies them, and the stored bytes of ragged values only in
 * their index and where they are copied; so long values may lie in a mapped file, and a call that refuses reads none of them.
 *
 * STACK. 16 KiB is enough for any call but dpx_table_read, dpx_table_set, dpx_table_preview, dpx_table_pack and dpx_guest_edit,
 * which put the cells in the order in which they lie: for these 16 KiB are enough up to 2,048 cells, and 272 KiB above.
 * dpx_merge, dpx_migrate_step and dpx_migrate_extract take 8 KiB to mark the cells that the subsets hold.
 *
 * THREADS. There is no state: any number of calls may run at the same time, on outputs that do not overlap.
 */
#ifndef DURPAXETA_H
#define DURPAXETA_H

#include <stddef.h>
#include <stdint.h>

#ifdef __cplusplus
extern "C" {
#endif

/* The version, as three numbers, as text, and as one number that grows with it: #if DPX_VERSION_NUMBER >= 1002003 */
#define DPX_VERSION_MAJOR 0
#define DPX_VERSION_MINOR 12
#define DPX_VERSION_PATCH 0
#define DPX_VERSION "0.12.0"
#define DPX_VERSION_NUMBER (DPX_VERSION_MAJOR * 1000000 + DPX_VERSION_MINOR * 1000 + DPX_VERSION_PATCH)

/* Limits. One more of any of these is refused. */
#define DPX_MAX_DEPTH 4             /* mask levels; 0 is allowed      */
#define DPX_MAX_SIZE 64             /* bytes of a fixed cell, from 1  */
#define DPX_MAX_SIDES 4             /* sides of a shape, from 1       */
#define DPX_MAX_CELLS 65536         /* cells of a shape               */
#define DPX_MAX_VALUE_BYTES UINT64_C(8589934592) /* value bytes of a table: more than an int holds */
#define DPX_MAX_STORE 16777216      /* bytes of a working table's store */
#define DPX_MAX_MOVES 256           /* cells that one dpx_table_pack moves, from 1 */
#define DPX_MAX_ARRANGED_DEPTH 2    /* mask levels of an arrangement; 0 is allowed */
#define DPX_MAX_ARRANGED_CELLS 4    /* cells of an arrangement, from 1 */

/* The answers, by who causes them. */
enum dpx_refusal {
    DPX_OK = 0,

    /* Whoever describes the table. */
    DPX_KIND = 1,   /* depth, size or another field of the kind is out of its range; of a working table also: the kind is not
                       ragged, or not 1 to 256 cells are to be moved; of an arrangement: depth over 2, or not 1 to 4 cells */
    DPX_SHAPE = 2,  /* no side, five or more, a side of 0, or over 65,536 cells (also as the count of the older form); a
                       working table of no cells, or of over 65,536 */
    DPX_SUBSET = 3, /* a subset reaches past its shape, or has not one start and one length a side; in a merge, and of a chunk
                       of a live table, also: it holds no cell */
    DPX_NO_MASKS = 17, /* a guest's call: the kind has depth 0, so there is no mask that could hide a cell */

    /* Whoever hands over an array, a chunk list, a working table, a live table or a rights plane. */
    DPX_CONTENT = 4, /* lengths of masks, values, offsets or chunks disagree, a mask byte is over 01, the first offset is not
                        0, or offsets fall; a working table is not in rest form, or its cells overlap, leave the store, or
                        start elsewhere than at 0 with no bytes; a live table's lists have not one length a chunk, its old
                        lengths do not sum to its old bytes, more chunks are moved than it has, or its moved lengths sum
                        past the area; a rights plane has not one byte a cell, or one over 01 */
    DPX_SIZE = 5,    /* over 8,589,934,592 value bytes, or over 16,777,216 bytes of a store */
    DPX_COVER = 12,  /* the subsets of a merge, or of a live table, miss a cell or hold one twice */
    DPX_FIELD = 20,  /* an offset for an index of width 4, or a cell's length in the older form, is over 4,294,967,295 */

    /* Whoever sets a cell of a working table, or asks what a setting would do. */
    DPX_CELL = 15, /* the number of the cell is the count of cells, or above it */
    DPX_FULL = 16, /* the lengths of the cells would sum to more bytes than the store has */
    DPX_HIDDEN = 18, /* a guest's edit: the rights plane hides the cell */

    /* Whoever numbers an arrangement. */
    DPX_ARRANGEMENT = 19, /* the number of the arrangement is the count of arrangements, or above it */

    /* Whoever stored the bytes. */
    DPX_SHORT = 7,     /* under 16 bytes for a frame, 8 for ragged values, 4 * (1 + cells) for the older form */
    DPX_LENGTH = 8,    /* a stored length disagrees: frame total, mask, index, data or plain values; or content follows a mask
                          in which no cell is set */
    DPX_COUNT = 9,     /* the older form counts another number of cells */
    DPX_FALLING = 10,  /* the first stored offset is not 0, or stored offsets fall */
    DPX_PAST_END = 11, /* older form: a length field or a cell runs past the end */
    DPX_UNUSED_BITS = 13, /* a packed mask has a bit after its last cell that is not 0 */
    DPX_NOT_BOOLEAN = 14, /* a stored mask of bytes has a byte over 01 */

    /* Whoever lends the output. */
    DPX_OUTPUT = 6 /* an output is shorter than the result needs; of a live table also: the area is, for the next chunk */
};

/* An answer in words: what is wrong, and who causes it. */
#define DPX_DESCRIBER " (caused by whoever describes the table)"
#define DPX_SUPPLIER " (caused by whoever hands over the array, chunk list, working table, live table or rights plane)"
#define DPX_SETTER " (caused by whoever sets the cell)"
#define DPX_NUMBERER " (caused by whoever numbers the arrangement)"
#define DPX_STORER " (caused by whoever stored the bytes)"
#define DPX_LENDER " (caused by whoever lends the output)"
static inline const char *dpx_refusal_text(uint32_t refusal)
{
    switch (refusal) {
    case DPX_OK: return "done";
    case DPX_KIND: return "refusal 1: the kind is out of range: depth 0 to 4, cell size 1 to 64 bytes, index width 4 or 8"
                          " bytes (of a working table: ragged, and 1 to 256 cells to move; of an arrangement: ragged, depth 0"
                          " to 2, and 1 to 4 cells)" DPX_DESCRIBER;
    case DPX_SHAPE: return "refusal 2: the shape is out of range: 1 to 4 sides, each at least 1, at most 65,536 cells in"
                           " all (of a working table: 1 to 65,536 cells)" DPX_DESCRIBER;
    case DPX_SUBSET: return "refusal 3: a subset reaches past the shape, or has not one start and one length for each side,"
                            " or, in a merge or as a chunk of a live table, holds no cell" DPX_DESCRIBER;
    case DPX_CONTENT: return "refusal 4: lengths of masks, values, offsets or chunks disagree, a mask byte is neither 00 nor"
                             " 01, the first offset is not 0, or offsets fall (of a working table: it is not in rest form, or"
                             " cells overlap or lie where they must not; of a live table: a list has not one length for each"
                             " chunk, lengths do not sum to the old bytes or sum past the area, or more chunks are moved than"
                             " there are; of a rights plane: it has not one byte for each cell, or one is neither 00 nor 01)"
                             DPX_SUPPLIER;
    case DPX_SIZE: return "refusal 5: more than 8,589,934,592 value bytes, or 16,777,216 bytes of a store" DPX_SUPPLIER;
    case DPX_OUTPUT: return "refusal 6: an output, or the area of a live table, is shorter than the result needs" DPX_LENDER;
    case DPX_SHORT: return "refusal 7: too few stored bytes: a frame takes at least 16, ragged values 8, the interleaved form"
                           " 4 and 4 for each cell" DPX_STORER;
    case DPX_LENGTH: return "refusal 8: a stored length disagrees with the bytes that are there, or with the number of cells,"
                            " or bytes are stored where no cell has any" DPX_STORER;
    case DPX_COUNT: return "refusal 9: the interleaved form counts another number of cells" DPX_STORER;
    case DPX_FALLING: return "refusal 10: the first stored offset is not 0, or stored offsets fall" DPX_STORER;
    case DPX_PAST_END: return "refusal 11: interleaved form: a length field or a cell runs past the end" DPX_STORER;
    case DPX_COVER: return "refusal 12: the subsets of the merge, or of the live table, miss a cell or hold one twice"
                           DPX_SUPPLIER;
    case DPX_UNUSED_BITS: return "refusal 13: a packed mask has a bit after its last cell that is not 0" DPX_STORER;
    case DPX_NOT_BOOLEAN: return "refusal 14: a stored mask byte is neither 00 nor 01" DPX_STORER;
    case DPX_CELL: return "refusal 15: the working table has no cell of that number" DPX_SETTER;
    case DPX_FULL: return "refusal 16: the cells would have more bytes than the store" DPX_SETTER;
    case DPX_NO_MASKS: return "refusal 17: the kind has no masks, and only a mask can hide a cell from a guest" DPX_DESCRIBER;
    case DPX_HIDDEN: return "refusal 18: the rights plane hides that cell from the guest" DPX_SETTER;
    case DPX_ARRANGEMENT: return "refusal 19: there is no arrangement of that number: there are depth + 4 to the power of the"
                                 " cells, numbered from 0" DPX_NUMBERER;
    case DPX_FIELD: return "refusal 20: an offset for an index of 4 bytes, or the length of a cell of the interleaved form, is"
                           " over 4,294,967,295" DPX_SUPPLIER;
    default: return "no answer of this version";
    }
}
#undef DPX_DESCRIBER
#undef DPX_SUPPLIER
#undef DPX_SETTER
#undef DPX_NUMBERER
#undef DPX_STORER
#undef DPX_LENDER

/* The numbers of a kind. Any other number in a field is refused with 1. */
enum dpx_form { DPX_FIXED = 0, DPX_RAGGED = 1 };
enum dpx_order { DPX_LITTLE = 0, DPX_BIG = 1 }; /* order of the bytes of a stored fixed cell */
enum dpx_place { DPX_START = 0, DPX_END = 1 };  /* where the index of stored ragged values lies */
enum dpx_mask { DPX_MASK_BYTES = 0, DPX_MASK_PACKED = 1 }; /* a byte or a bit for each cell of a stored mask */

/*
 * A kind, passed by value. Make one with dpx_fixed or dpx_ragged, and dpx_packed of it where stored masks are packed.
 */
typedef struct dpx_kind {
    uint64_t depth; /* mask levels, 0 to 4 */
    uint64_t form;  /* DPX_FIXED or DPX_RAGGED */
    uint64_t size;  /* fixed: bytes of a cell, 1 to 64. ragged: bytes of a stored offset, 4 or 8 */
    uint64_t order; /* fixed: DPX_LITTLE or DPX_BIG. ragged: DPX_START or DPX_END */
    uint64_t mask;  /* DPX_MASK_BYTES or DPX_MASK_PACKED. At depth 0 there is no mask, and either is the same */
} dpx_kind;

/* Fixed cells of `size` bytes. In memory a cell is always in little order; `order` is that of the stored bytes. */
static inline dpx_kind dpx_fixed(uint64_t depth, uint64_t size, enum dpx_order order)
{
    dpx_kind kind;
    kind.depth = depth;
    kind.form = DPX_FIXED;
    kind.size = size;
    kind.order = order;
    kind.mask = DPX_MASK_BYTES;
    return kind;
}

/* Ragged cells; the stored index has offsets of `width` bytes (4 or 8) and lies at `place`. */
static inline dpx_kind dpx_ragged(uint64_t depth, uint64_t width, enum dpx_place place)
{
    dpx_kind kind;
    kind.depth = depth;
    kind.form = DPX_RAGGED;
    kind.size = width;
    kind.order = place;
    kind.mask = DPX_MASK_BYTES;
    return kind;
}

/*
 * The same kind with its stored masks packed: cell i of a level is bit i % 8 of byte i / 8, the lowest bit first, where i
 * counts the cells that have a place in that mask. Only dpx_encode and dpx_decode look at it.
 */
static inline dpx_kind dpx_packed(dpx_kind kind)
{
    kind.mask = DPX_MASK_PACKED;
    return kind;
}

/*
 * ROOM: how long the outputs must be. For what a call refuses any room will do, and these answer little or nothing.
 */

/* Cells of that many sides, of a shape or of the lengths of a subset; 0 where there are none, or over 65,536. */
static inline uint64_t dpx_cell_count(const uint64_t *sides, size_t sides_len)
{
    uint64_t cells = sides_len >= 1 && sides_len <= DPX_MAX_SIDES ? 1 : 0;
    size_t i;
    for (i = 0; i < sides_len && cells != 0; i++)
        cells = sides[i] <= DPX_MAX_CELLS / cells ? cells * sides[i] : 0;
    return cells;
}

/* Elements of masks, values and offsets. */
typedef struct dpx_room {
    size_t masks;
    size_t values;
    size_t offsets;
} dpx_room;

/*
 * The room that an array of `cells` cells needs. Ragged values are at most `bytes` long.
 *   dpx_decode              cells of the shape,  bytes: bytes_len
 *   dpx_extract             cells of the subset, bytes: values_len
 *   dpx_merge               cells of the shape,  bytes: values_len
 *   dpx_guest_read          cells of the shape,  bytes: values_len
 *   dpx_generate            cells of the shape,  bytes: 8 * cells
 *   dpx_arrangement         its cells,           bytes: 3 * cells, kind: ragged, its depth
 *   dpx_table_read          its cells,           bytes: store_len
 *   dpx_partial_decode      cells of the subset, bytes: bytes_len, kind: ragged, depth 0
 *   dpx_decode_interleaved  its cells,           bytes: bytes_len, kind: ragged, depth 0
 *   dpx_migrate_extract     cells of the subset, bytes: old_len + area_len, kind: ragged, depth 0
 * All of it is used but for ragged values, which may be shorter.
 */
static inline dpx_room dpx_array_room(dpx_kind kind, uint64_t cells, size_t bytes)
{
    dpx_room room = {0, 0, 0};
    if (kind.depth > DPX_MAX_DEPTH || kind.size > DPX_MAX_SIZE || cells > DPX_MAX_CELLS)
        return room;
    room.masks = kind.depth * cells;
    if (kind.form == DPX_RAGGED) {
        room.values = bytes < DPX_MAX_VALUE_BYTES ? bytes : DPX_MAX_VALUE_BYTES;
        room.offsets = cells + 1;
    } else {
        room.values = cells * kind.size;
    }
    return room;
}

/* Arrangements of `cells` cells of that depth: depth + 4 to the power `cells`; 0 where dpx_arrangement refuses them with 1. */
static inline uint64_t dpx_arrangement_count(uint64_t depth, uint64_t cells)
{
    uint64_t count = 1, cell;
    if (depth > DPX_MAX_ARRANGED_DEPTH || cells < 1 || cells > DPX_MAX_ARRANGED_CELLS)
        return 0;
    for (cell = 0; cell < cells; cell++)
        count *= depth + 4;
    return count;
}

/* The stored bytes of one level's mask over that many cells. */
static inline size_t dpx_mask_room(dpx_kind kind, uint64_t cells)
{
    switch (kind.mask) {
    case DPX_MASK_BYTES: return cells;
    case DPX_MASK_PACKED: return (cells + 7) / 8;
    default: return 0;
    }
}

/*
 * The most bytes that dpx_encode writes for an array of `cells` cells; of ragged ones with values_len value bytes.
 * Exactly as many are written where no cell is null.
 */
static inline size_t dpx_stored_room(dpx_kind kind, uint64_t cells, size_t values_len)
{
    const dpx_room array = dpx_array_room(kind, cells, values_len);
    size_t index = 0;
    if (array.values + array.offsets == 0)
        return 0;
    if (kind.form == DPX_RAGGED)
        index = 8 + kind.size * array.offsets;
    return kind.depth * (16 + dpx_mask_room(kind, cells)) + array.values + index;
}

/* The bytes that dpx_encode_interleaved writes. */
static inline size_t dpx_interleaved_room(uint64_t cells, size_t values_len)
{
    return cells > DPX_MAX_CELLS || values_len > DPX_MAX_VALUE_BYTES ? 0 : 4 + 4 * cells + values_len;
}

/*
 * The most bytes of the area that chunks of a live table take once they are moved: so many chunks, of so many cells in all,
 * whose old strings have old_len bytes. Exactly as many are taken where no old string has bytes behind its last cell.
 * One chunk takes 24 bytes, 8 for each cell after its first, and the bytes of its cells.
 */
static inline size_t dpx_area_room(size_t chunks, uint64_t cells, size_t old_len)
{
    return cells > DPX_MAX_CELLS || chunks > cells ? 0 : 12 * chunks + 4 * cells + old_len;
}

/*
 * CELLS
 */

/* What a mask byte says of its cell. Everything in this header that reads a mask byte asks dpx_mark_of. */
enum dpx_mark {
    DPX_MARK_NULL, /* 00 */
    DPX_MARK_SET,  /* 01 */
    DPX_MARK_OTHER /* any other byte, which no mask has: handed over it is refused with 4, stored with 14 */
};

static inline enum dpx_mark dpx_mark_of(uint8_t byte)
{
    return byte == 0 ? DPX_MARK_NULL : byte == 1 ? DPX_MARK_SET : DPX_MARK_OTHER;
}

/* In place of a null level: there is no such cell, as a mask byte of it, up to the first 00, is over 01. */
#define DPX_NO_CELL UINT64_MAX

/* What a cell is: null at a level, or a value, which may be empty. */
typedef struct dpx_cell {
    uint64_t null_level;  /* 0: it has a value. Else the outermost level whose mask byte is 00, from 1; or DPX_NO_CELL */
    const uint8_t *value; /* its first byte; of no use where the cell is null, empty or none */
    uint64_t length;      /* its bytes; 0 where the cell is null or none */
} dpx_cell;

/*
 * Cell `number` of an array of `cells` cells, counted row by row from 0. The array is one that a call gave or accepted,
 * and `number` is below `cells`: lengths and offsets are not tested here. `value` points into `values`. Such an array has
 * no mask byte over 01; in another one a cell with such a byte has neither a value nor a null level: DPX_NO_CELL.
 */
static inline dpx_cell dpx_get_cell(dpx_kind kind, uint64_t cells,
                                    const uint8_t *masks, const uint8_t *values, const uint64_t *offsets,
                                    uint64_t number)
{
    dpx_cell cell = {0, values, 0};
    uint64_t level, start;
    for (level = 0; level < kind.depth; level++) {
        const enum dpx_mark mark = dpx_mark_of(masks[level * cells + number]);
        if (mark != DPX_MARK_SET) {
            cell.null_level = mark == DPX_MARK_NULL ? level + 1 : DPX_NO_CELL;
            return cell;
        }
    }
    if (kind.form == DPX_RAGGED) {
        start = offsets[number];
        cell.length = offsets[number + 1] - start;
    } else {
        start = number * kind.size;
        cell.length = kind.size;
    }
    if (cell.length != 0)
        cell.value = values + start;
    return cell;
}

/*
 * Cell `number` of a working table of `cells` cells, one that a call made or accepted; `number` is below `cells`. `value`
 * points into the store, and holds until a cell is set, by dpx_guest_edit too, or the table is packed: all may move cells.
 */
static inline dpx_cell dpx_table_cell(dpx_kind kind, uint64_t cells,
                                      const uint8_t *masks, const uint64_t *starts, const uint64_t *cell_lengths,
                                      const uint8_t *store, uint64_t number)
{
    dpx_cell cell = {0, store, 0};
    uint64_t level;
    for (level = 0; level < kind.depth; level++) {
        const enum dpx_mark mark = dpx_mark_of(masks[level * cells + number]);
        if (mark != DPX_MARK_SET) {
            cell.null_level = mark == DPX_MARK_NULL ? level + 1 : DPX_NO_CELL;
            return cell;
        }
    }
    cell.length = cell_lengths[number];
    if (cell.length != 0)
        cell.value = store + starts[number];
    return cell;
}

/*
 * Array to stored bytes.
 *
 * Writes the stored form to `out`. Values below a null are not stored. Fixed values of big order are stored with the
 * bytes of each cell reversed. A packed mask has bit 1 for every mask byte 01, and 0 in the bits after its last cell.
 * Enough room: dpx_stored_room.
 *
 *   lengths[0]   stored bytes written
 *
 * Refusals, in this order:
 *   1 DPX_KIND     whoever describes the table
 *   2 DPX_SHAPE    whoever describes the table
 *   4 DPX_CONTENT  whoever hands over the array: masks_len is not depth * cells; a mask byte is over 01, in packed kinds too
 *                  and below a null too; fixed: values_len is not cells * size, or there are offsets; ragged: offsets_len
 *                  is not cells + 1, the first is not 0, offsets fall, or the last is not values_len
 *   5 DPX_SIZE     whoever hands over the array: the last offset is over 8,589,934,592
 *  20 DPX_FIELD    whoever hands over the array: in width 4 an offset that is written, laid from 0 over the values that are
 *                  left, is over 4,294,967,295
 *   6 DPX_OUTPUT   whoever lends the output: out_len is under the written length
 */
uint32_t dpx_encode(dpx_kind kind,
                    const uint64_t *shape, size_t shape_len,
                    const uint8_t *masks, size_t masks_len,
                    const uint8_t *values, size_t values_len,
                    const uint64_t *offsets, size_t offsets_len,
                    uint8_t *out, size_t out_len,
                    uint64_t lengths[1]);

/*
 * Stored bytes to array.
 *
 * `bytes` is the whole stored table, neither more nor less, and every byte of it is looked at: there is no place for bytes
 * that are in no cell. A set cell of a packed mask comes out as 01. Below a null every mask byte comes out as 00, a fixed
 * value as zero bytes and a ragged one as no bytes. Ragged values come out end to end from offset 0.
 * What is accepted here, dpx_encode writes again as the very same bytes. So two accepted tables of one kind and shape have
 * equal cells where memcmp finds their stored bytes equal, and only there.
 * Enough room: dpx_array_room. That is depth * cells masks; fixed: cells * size values; ragged: bytes_len values and
 * cells + 1 offsets.
 *
 *   lengths[0]   mask bytes written: depth * cells
 *   lengths[1]   value bytes written
 *   lengths[2]   offsets written: cells + 1, or 0 for a fixed kind
 *
 * Refusals, in this order:
 *   1 DPX_KIND     whoever describes the table
 *   2 DPX_SHAPE    whoever describes the table
 *   for each level, the outermost first, as long as a cell is set above it:
 *   7 DPX_SHORT    whoever stored the bytes: under 16 bytes for the frame
 *   8 DPX_LENGTH   whoever stored the bytes: 16 and the two lengths are not the bytes there, or the mask length is not the
 *                  count of cells set above; packed: not that count divided by 8, rounded up
 *  13 DPX_UNUSED_BITS  whoever stored the bytes: in the last byte of a packed mask, a bit after the last of those cells is
 *                  not 0
 *  14 DPX_NOT_BOOLEAN  whoever stored the bytes: a byte of a mask that is not packed is over 01, wherever in that mask
 *   8 DPX_LENGTH   whoever stored the bytes: no cell is set in that mask, and yet content follows it
 *   then, if a cell is set at all levels, of ragged values:
 *   7 DPX_SHORT    whoever stored the bytes: under 8 bytes
 *   8 DPX_LENGTH   whoever stored the bytes: the index is longer than the bytes, or not width * (cells + 1); or the last
 *                  offset is not the count of data bytes
 *  10 DPX_FALLING  whoever stored the bytes: the first offset is not 0, or offsets fall
 *   5 DPX_SIZE     whoever hands over the array: the stored last offset is over 8,589,934,592
 *   or of fixed ones:
 *   8 DPX_LENGTH   whoever stored the bytes: there are not cells * size bytes
 *   last:
 *   6 DPX_OUTPUT   whoever lends the outputs
 */
uint32_t dpx_decode(dpx_kind kind,
                    const uint64_t *shape, size_t shape_len,
                    const uint8_t *bytes, size_t bytes_len,
                    uint8_t *out_masks, size_t out_masks_len,
                    uint8_t *out_values, size_t out_values_len,
                    uint64_t *out_offsets, size_t out_offsets_len,
                    uint64_t lengths[3]);

/*
 * The older, interleaved form (Zarr V2) to values and offsets.
 *
 * `bytes` has a 4-byte count, then for each cell a 4-byte length and its bytes, all little-endian. The caller says how
 * many cells there are, 0 to 65,536. Bytes after the last cell are ignored.
 * Enough room: bytes_len values and cells + 1 offsets.
 *
 *   lengths[0]   value bytes written
 *   lengths[1]   offsets written: cells + 1
 *
 * Refusals, in this order:
 *   2 DPX_SHAPE    whoever describes the table: over 65,536 cells
 *   7 DPX_SHORT    whoever stored the bytes: under 4 * (1 + cells) bytes
 *   9 DPX_COUNT    whoever stored the bytes: the stored count is not `cells`
 *  11 DPX_PAST_END whoever stored the bytes: a length field or a cell runs past the end
 *   5 DPX_SIZE     whoever hands over the array: the cells sum up to over 8,589,934,592 bytes
 *   6 DPX_OUTPUT   whoever lends the outputs
 */
uint32_t dpx_decode_interleaved(uint64_t cells,
                                const uint8_t *bytes, size_t bytes_len,
                                uint8_t *out_values, size_t out_values_len,
                                uint64_t *out_offsets, size_t out_offsets_len,
                                uint64_t lengths[2]);

/*
 * An array to the older, interleaved form (Zarr V2).
 *
 * Writes a 4-byte count, then for each cell a 4-byte length and its bytes, all little-endian. The kind is ragged, of depth
 * 0: this form has no masks. Width and place of its index say nothing here. dpx_decode_interleaved reads the cells again.
 * Enough room: dpx_interleaved_room. Written are 4 + 4 * cells bytes, and those of the cells.
 *
 *   lengths[0]   bytes written
 *
 * Refusals, in this order:
 *   1 DPX_KIND     whoever describes the table: also a depth above 0, and a fixed kind
 *   2 DPX_SHAPE    whoever describes the table
 *   4 DPX_CONTENT  whoever hands over the array: as for dpx_encode; so masks_len is 0
 *   5 DPX_SIZE     whoever hands over the array: the last offset is over 8,589,934,592
 *  20 DPX_FIELD    whoever hands over the array: a cell has over 4,294,967,295 bytes, whatever the width is
 *   6 DPX_OUTPUT   whoever lends the output: out_len is under the written length
 */
uint32_t dpx_encode_interleaved(dpx_kind kind,
                                const uint64_t *shape, size_t shape_len,
                                const uint8_t *masks, size_t masks_len,
                                const uint8_t *values, size_t values_len,
                                const uint64_t *offsets, size_t offsets_len,
                                uint8_t *out, size_t out_len,
                                uint64_t lengths[1]);

/*
 * A load: the array that a kind, a shape and a start number determine, the same on every machine.
 *
 * The state is the start number at first. Each draw makes the next state, 1,664,525 * state + 1,013,904,223 in 32 bits, and
 * is that state's upper 16 bits. Cell by cell in row order: for each level, the outermost first, one draw says null if it is
 * 0 mod 4, else set (01). The first null ends the cell: 00 in the masks below, zero bytes or no bytes as its value, and
 * nothing is drawn for them. Of a cell that is set at all levels a ragged value draws its length mod 9; then each value byte is
 * a draw mod 256. Width, place, byte order and mask form change nothing.
 * Enough room: dpx_array_room with 8 * cells. That is depth * cells masks; fixed: cells * size values; ragged: 8 * cells
 * values and cells + 1 offsets. Ragged values may be fewer; an output that holds just them will do, and takes a second run.
 *
 *   lengths[0]   mask bytes written: depth * cells
 *   lengths[1]   value bytes written
 *   lengths[2]   offsets written: cells + 1, or 0 for a fixed kind
 *
 * Refusals, in this order:
 *   1 DPX_KIND     whoever describes the table
 *   2 DPX_SHAPE    whoever describes the table
 *   6 DPX_OUTPUT   whoever lends the outputs
 */
uint32_t dpx_generate(dpx_kind kind,
                      const uint64_t *shape, size_t shape_len,
                      uint32_t start,
                      uint8_t *out_masks, size_t out_masks_len,
                      uint8_t *out_values, size_t out_values_len,
                      uint64_t *out_offsets, size_t out_offsets_len,
                      uint64_t lengths[3]);

/*
 * One of the arrangements of a few ragged cells: every small table, by its number.
 *
 * A cell of depth d, 0 to 2, is in one of d + 4 states, numbered from 0: null at level 1 up to null at level d, level 1 being
 * the outermost; then all masks set, with 0, 1, 2 and 3 value bytes. Value bytes are 00. Of n cells, 1 to 4, there are d + 4 to
 * the power n arrangements (dpx_arrangement_count). The states of the cells are the digits of `number` in base d + 4, the first
 * cell weighing most. So from 0 on each array of that size in rest form, with zero bytes and at most 3 of them in a cell, comes
 * up once. It is valid for every ragged kind of that depth, and every shape of that many cells: width, place and mask form
 * change nothing, and no kind is handed over.
 * Enough room: dpx_array_room with 3 * cells. That is depth * cells masks, as many values as the cells have bytes, cells + 1
 * offsets; 8 masks, 12 values and 5 offsets for any arrangement.
 *
 *   lengths[0]   mask bytes written: depth * cells
 *   lengths[1]   value bytes written
 *   lengths[2]   offsets written: cells + 1
 *
 * Refusals, in this order:
 *   1 DPX_KIND         whoever describes the table: depth is over 2, or `cells` is not 1 to 4
 *  19 DPX_ARRANGEMENT  whoever numbers the arrangement: `number` is the count of arrangements, or above it
 *   6 DPX_OUTPUT       whoever lends the outputs
 */
uint32_t dpx_arrangement(uint64_t depth, uint64_t cells, uint64_t number,
                         uint8_t *out_masks, size_t out_masks_len,
                         uint8_t *out_values, size_t out_values_len,
                         uint64_t *out_offsets, size_t out_offsets_len,
                         uint64_t lengths[3]);

/*
 * The cells of a subset out of an array.
 *
 * Masks and values of the subset's cells, in row order; values below a null are kept. Ragged values come out end to end
 * from offset 0. A subset of no cells is allowed: its masks and values are empty, a ragged kind has the one offset 0.
 * Enough room: depth * (cells of the subset) masks; fixed: their cells * size values; ragged: values_len values, and one
 * offset more than the subset has cells.
 *
 *   lengths[0]   mask bytes written
 *   lengths[1]   value bytes written
 *   lengths[2]   offsets written: cells of the subset + 1, or 0 for a fixed kind
 *
 * Refusals, in this order:
 *   1 DPX_KIND     whoever describes the table
 *   2 DPX_SHAPE    whoever describes the table
 *   3 DPX_SUBSET   whoever describes the table: subset_len is not 2 * shape_len, or start + length is over a side
 *   4 DPX_CONTENT  whoever hands over the array: as for dpx_encode
 *   5 DPX_SIZE     whoever hands over the array: the last offset is over 8,589,934,592
 *   6 DPX_OUTPUT   whoever lends the outputs
 */
uint32_t dpx_extract(dpx_kind kind,
                     const uint64_t *shape, size_t shape_len,
                     const uint64_t *subset, size_t subset_len,
                     const uint8_t *masks, size_t masks_len,
                     const uint8_t *values, size_t values_len,
                     const uint64_t *offsets, size_t offsets_len,
                     uint8_t *out_masks, size_t out_masks_len,
                     uint8_t *out_values, size_t out_values_len,
                     uint64_t *out_offsets, size_t out_offsets_len,
                     uint64_t lengths[3]);

/*
 * A list of chunks into one array.
 *
 * `subsets` says which cells each chunk holds, 2 * shape_len numbers a chunk. Masks, values and offsets of the chunks lie
 * end to end in the order of the list: all planes of chunk 0, then all of chunk 1, and so on. The offsets of a chunk are
 * one more than its cells and count from the start of its own values: its first one is 0, and its last one says how many
 * value bytes it has.
 * Together the subsets hold each cell of the shape once; their order is free. Values below a null are kept. Ragged
 * values come out end to end from offset 0.
 * Enough room: depth * cells masks; fixed: cells * size values; ragged: values_len values and cells + 1 offsets.
 *
 *   lengths[0]   mask bytes written: depth * cells
 *   lengths[1]   value bytes written
 *   lengths[2]   offsets written: cells + 1, or 0 for a fixed kind
 *
 * Refusals, in this order:
 *   1 DPX_KIND     whoever describes the table
 *   2 DPX_SHAPE    whoever describes the table
 *   3 DPX_SUBSET   whoever describes the table: subsets_len is no multiple of 2 * shape_len, a subset reaches past the
 *                  shape, or a subset holds no cell
 *   4 DPX_CONTENT  whoever hands over the chunk list: lengths are not what the subsets and the last offsets say, a mask byte
 *                  is over 01, or of a chunk the first offset is not 0 or offsets fall
 *   5 DPX_SIZE     whoever hands over the chunk list: the cells of all chunks sum up to over 8,589,934,592 bytes
 *  12 DPX_COVER    whoever hands over the chunk list: a cell is missed or held twice
 *   6 DPX_OUTPUT   whoever lends the outputs
 */
uint32_t dpx_merge(dpx_kind kind,
                   const uint64_t *shape, size_t shape_len,
                   const uint64_t *subsets, size_t subsets_len,
                   const uint8_t *masks, size_t masks_len,
                   const uint8_t *values, size_t values_len,
                   const uint64_t *offsets, size_t offsets_len,
                   uint8_t *out_masks, size_t out_masks_len,
                   uint8_t *out_values, size_t out_values_len,
                   uint64_t *out_offsets, size_t out_offsets_len,
                   uint64_t lengths[3]);

/*
 * The cells of a subset out of stored ragged values of depth 0, without reading the rest into memory.
 *
 * Gives what dpx_decode with dpx_ragged(0, width, place) and then dpx_extract give. The subset is tested before the
 * stored bytes.
 * Enough room: bytes_len values, and one offset more than the subset has cells.
 *
 *   lengths[0]   value bytes written
 *   lengths[1]   offsets written: cells of the subset + 1
 *
 * Refusals, in this order:
 *   1 DPX_KIND     whoever describes the table: width is not 4 or 8, or place is not DPX_START or DPX_END
 *   2 DPX_SHAPE    whoever describes the table
 *   3 DPX_SUBSET   whoever describes the table: as for dpx_extract
 *   7 DPX_SHORT    whoever stored the bytes: under 8 bytes
 *   8 DPX_LENGTH   whoever stored the bytes: index or data, as for dpx_decode
 *  10 DPX_FALLING  whoever stored the bytes: the first offset is not 0, or offsets fall
 *   5 DPX_SIZE     whoever hands over the array: the stored last offset is over 8,589,934,592
 *   6 DPX_OUTPUT   whoever lends the outputs
 */
uint32_t dpx_partial_decode(uint64_t width, uint64_t place,
                            const uint64_t *shape, size_t shape_len,
                            const uint64_t *subset, size_t subset_len,
                            const uint8_t *bytes, size_t bytes_len,
                            uint8_t *out_values, size_t out_values_len,
                            uint64_t *out_offsets, size_t out_offsets_len,
                            uint64_t lengths[2]);

/*
 * Reverses the bytes of each whole cell, in place. A tail shorter than a cell is left.
 *
 *   lengths[0]   bytes of the whole cells
 *
 * Refusals:
 *   1 DPX_KIND     whoever describes the table: size is 0 or over 64; the bytes stay as they are
 */
uint32_t dpx_reverse_endianness(uint64_t size,
                                uint8_t *bytes, size_t bytes_len,
                                uint64_t lengths[1]);

/*
 * The numbers of the cells of a subset, in row order.
 *
 * Enough room: the product of the subset's lengths.
 *
 *   lengths[0]   cells written
 *
 * Refusals, in this order:
 *   2 DPX_SHAPE    whoever describes the table
 *   3 DPX_SUBSET   whoever describes the table: as for dpx_extract
 *   6 DPX_OUTPUT   whoever lends the output
 */
uint32_t dpx_subset_cells(const uint64_t *shape, size_t shape_len,
                          const uint64_t *subset, size_t subset_len,
                          uint64_t *out_cells, size_t out_cells_len,
                          uint64_t lengths[1]);

/*
 * An array to a working table.
 *
 * The table is the array's rest form, packed in cell order: what lies below a null is left out and takes no room. The store
 * is lent in the length that the table is to have; the bytes behind the cells keep what they held, and are room for
 * settings. An array in memory has a shape; here its cells are a count.
 * Enough room: depth * cells masks, `cells` starts and lengths, values_len bytes of store, or fewer where some are hidden.
 *
 *   lengths[0]   mask bytes written: depth * cells
 *   lengths[1]   starts written: cells
 *   lengths[2]   lengths written: cells
 *   lengths[3]   store bytes written: those of the cells
 *
 * Refusals, in this order:
 *   1 DPX_KIND     whoever describes the table: also a fixed kind
 *   2 DPX_SHAPE    whoever describes the table: no cells, or over 65,536
 *   4 DPX_CONTENT  whoever hands over the array: as for dpx_encode
 *   5 DPX_SIZE     whoever hands over the array or the store: the last offset is over 8,589,934,592, or store_len
 *                  over 16,777,216
 *   6 DPX_OUTPUT   whoever lends the outputs: the store too, where the cells have more bytes than it
 */
uint32_t dpx_table_make(dpx_kind kind, uint64_t cells,
                        const uint8_t *masks, size_t masks_len,
                        const uint8_t *values, size_t values_len,
                        const uint64_t *offsets, size_t offsets_len,
                        uint8_t *out_masks, size_t out_masks_len,
                        uint64_t *out_starts, size_t out_starts_len,
                        uint64_t *out_cell_lengths, size_t out_cell_lengths_len,
                        uint8_t *store, size_t store_len,
                        uint64_t lengths[4]);

/*
 * A working table to an array: its cells end to end from offset 0, in cell order, whatever lies where in the store. The array
 * is in rest form, and dpx_encode takes it with any shape of that many cells. The table is not changed.
 * Enough room: dpx_array_room. That is depth * cells masks, as many values as the lengths of the cells sum to (store_len is
 * enough), cells + 1 offsets.
 *
 *   lengths[0]   mask bytes written: depth * cells
 *   lengths[1]   value bytes written
 *   lengths[2]   offsets written: cells + 1
 *
 * Refusals, in this order:
 *   1 DPX_KIND     whoever describes the table: also a fixed kind
 *   2 DPX_SHAPE    whoever describes the table: no cells, or over 65,536
 *   4 DPX_CONTENT  whoever hands over the table: masks_len is not depth * cells, or starts_len or cell_lengths_len not cells; a
 *                  mask byte is over 01, or 01 below a null; a cell with a null has a length; start + length of a cell is
 *                  over store_len; a cell of length 0 has another start than 0; two cells share a byte
 *   5 DPX_SIZE     whoever hands over the table: store_len is over 16,777,216
 *   6 DPX_OUTPUT   whoever lends the outputs
 */
uint32_t dpx_table_read(dpx_kind kind, uint64_t cells,
                        const uint8_t *masks, size_t masks_len,
                        const uint64_t *starts, size_t starts_len,
                        const uint64_t *cell_lengths, size_t cell_lengths_len,
                        const uint8_t *store, size_t store_len,
                        uint8_t *out_masks, size_t out_masks_len,
                        uint8_t *out_values, size_t out_values_len,
                        uint64_t *out_offsets, size_t out_offsets_len,
                        uint64_t lengths[3]);

/*
 * Sets one cell of a working table, in place: cell `cell` gets these masks, outermost first, and this value.
 *
 * A mask byte 00 makes the cell null: mask bytes below it become 00, and the value is dropped. An empty cell is one with all
 * mask bytes 01 and no value. The cell's old bytes are given up first; the new ones go right behind the cell that lies
 * highest then. Where too little is left there, all cells are packed before (dpx_table_pack, with no bound): so a value
 * always has its place where the sum of lengths allows it. Gaps are not used otherwise. Success names nothing.
 * `value` must not lie in the store.
 *
 * Refusals, in this order:
 *   1 DPX_KIND     whoever describes the table: also a fixed kind
 *   2 DPX_SHAPE    whoever describes the table: no cells, or over 65,536
 *   4 DPX_CONTENT  whoever hands over the table: as for dpx_table_read; or whoever sets the cell: cell_masks_len is not depth,
 *                  or one of these bytes is over 01
 *   5 DPX_SIZE     whoever hands over the table: store_len is over 16,777,216
 *  15 DPX_CELL     whoever sets the cell: `cell` is `cells` or more
 *  16 DPX_FULL     whoever sets the cell: with the lengths of the other cells the value, if it is not dropped, is over store_len
 */
uint32_t dpx_table_set(dpx_kind kind, uint64_t cells,
                       uint8_t *masks, size_t masks_len,
                       uint64_t *starts, size_t starts_len,
                       uint64_t *cell_lengths, size_t cell_lengths_len,
                       uint8_t *store, size_t store_len,
                       uint64_t cell,
                       const uint8_t *cell_masks, size_t cell_masks_len,
                       const uint8_t *value, size_t value_len);

/*
 * What a setting would do: dpx_table_set with the same arguments would be refused with the same number, or leave a table with
 * these two numbers. It is as if the setting were made on a copy and the copy looked at, the packing included that it may
 * start. The table is not changed. `value` may lie in the store.
 *
 * A cell counts in the second number where it has bytes and does not start at its packed start (dpx_table_pack): the cell that
 * is set too, and those behind the bytes that it gives up. Where the setting packs all cells before, the number is 0. So many
 * cells there are for dpx_table_pack to move after the setting.
 *
 *   lengths[0]   the sum of the lengths of all cells after the setting
 *   lengths[1]   cells that would not be at their packed starts
 *
 * Refusals, in this order, as for dpx_table_set:
 *   1 DPX_KIND     whoever describes the table: also a fixed kind
 *   2 DPX_SHAPE    whoever describes the table: no cells, or over 65,536
 *   4 DPX_CONTENT  whoever hands over the table: as for dpx_table_read; or whoever asks: cell_masks_len is not depth, or one of
 *                  these bytes is over 01
 *   5 DPX_SIZE     whoever hands over the table: store_len is over 16,777,216
 *  15 DPX_CELL     whoever asks: `cell` is `cells` or more
 *  16 DPX_FULL     whoever asks: with the lengths of the other cells the value, if it is not dropped, is over store_len
 */
uint32_t dpx_table_preview(dpx_kind kind, uint64_t cells,
                           const uint8_t *masks, size_t masks_len,
                           const uint64_t *starts, size_t starts_len,
                           const uint64_t *cell_lengths, size_t cell_lengths_len,
                           const uint8_t *store, size_t store_len,
                           uint64_t cell,
                           const uint8_t *cell_masks, size_t cell_masks_len,
                           const uint8_t *value, size_t value_len,
                           uint64_t lengths[2]);

/*
 * Moves up to `most` cells of a working table to their packed starts, in place.
 *
 * The packed start of a cell is the sum of the lengths of those that lie lower; cells with no bytes have none. Of the cells
 * that start elsewhere the lowest-lying `most` are moved, or all that there are, the lowest first. No cell changes, only
 * where it lies. Where r cells start elsewhere, r / most calls, rounded up, pack the table; a call that has nothing left to
 * move names 0. One call takes the time to put the cells in order, and to move what it moves.
 *
 *   lengths[0]   cells moved
 *
 * Refusals, in this order:
 *   1 DPX_KIND     whoever describes the table: also a fixed kind; or `most` is not 1 to 256
 *   2 DPX_SHAPE    whoever describes the table: no cells, or over 65,536
 *   4 DPX_CONTENT  whoever hands over the table: as for dpx_table_read
 *   5 DPX_SIZE     whoever hands over the table: store_len is over 16,777,216
 */
uint32_t dpx_table_pack(dpx_kind kind, uint64_t cells,
                        const uint8_t *masks, size_t masks_len,
                        uint64_t *starts, size_t starts_len,
                        const uint64_t *cell_lengths, size_t cell_lengths_len,
                        uint8_t *store, size_t store_len,
                        uint64_t most,
                        uint64_t lengths[1]);

/*
 * What a guest sees of an array: the cells that its rights plane shows, and nulls in place of the others.
 *
 * Where the plane is 00 the outermost mask byte comes out as 00, whatever it was. The rest is as dpx_decode gives it: below a
 * null every mask byte is 00, a fixed value zero bytes and a ragged one no bytes, and ragged values lie end to end from offset
 * 0. The array is not changed.
 * Two arrays that keep the rules, and that differ only in cells that the plane hides, or below a null, give the same answer,
 * the same lengths and the same bytes, into outputs of any length: 6 goes by what is shown, and not by the array's lengths.
 * A working table is read for a guest by dpx_table_read, and then by this call, its count of cells as the one side of a shape.
 * Enough room: dpx_array_room. That is depth * cells masks; fixed: cells * size values; ragged: as many values as the lengths
 * of the cells that are shown and not null sum to (values_len is enough), and cells + 1 offsets.
 *
 *   lengths[0]   mask bytes written: depth * cells
 *   lengths[1]   value bytes written
 *   lengths[2]   offsets written: cells + 1, or 0 for a fixed kind
 *
 * Refusals, in this order:
 *   1 DPX_KIND     whoever describes the table
 *   2 DPX_SHAPE    whoever describes the table
 *  17 DPX_NO_MASKS whoever describes the table: depth 0, also of a fixed kind; the plane is not looked at
 *   4 DPX_CONTENT  whoever hands over the plane: rights_len is not the count of cells, or one of these bytes is over 01; or
 *                  whoever hands over the array: as for dpx_encode, hidden cells too
 *   5 DPX_SIZE     whoever hands over the array: the last offset is over 8,589,934,592, whatever is shown
 *   6 DPX_OUTPUT   whoever lends the outputs: one is shorter than what is shown
 */
uint32_t dpx_guest_read(dpx_kind kind,
                        const uint64_t *shape, size_t shape_len,
                        const uint8_t *rights, size_t rights_len,
                        const uint8_t *masks, size_t masks_len,
                        const uint8_t *values, size_t values_len,
                        const uint64_t *offsets, size_t offsets_len,
                        uint8_t *out_masks, size_t out_masks_len,
                        uint8_t *out_values, size_t out_values_len,
                        uint64_t *out_offsets, size_t out_offsets_len,
                        uint64_t lengths[3]);

/*
 * A guest's edit of a working table, in place: dpx_table_set of a cell that the guest's rights plane shows.
 *
 * All is as dpx_table_set says; `value` must not lie in the store here either. No cell that the plane hides changes, in masks or
 * value. But where all cells are packed before, hidden ones move as well: their starts change, and the store's bytes. Of two
 * tables that keep the rules the same edit gets the same answer, or one of them is 16: what is in them is not told, only
 * whether the store has room, and this for cells alone that the plane shows.
 *
 * Refusals, in this order:
 *   1 DPX_KIND     whoever describes the table: also a fixed kind
 *   2 DPX_SHAPE    whoever describes the table: no cells, or over 65,536
 *  17 DPX_NO_MASKS whoever describes the table: depth 0; the plane is not looked at
 *   4 DPX_CONTENT  whoever hands over the plane: rights_len is not `cells`, or one of these bytes is over 01, whatever `cell`
 *                  is; or whoever hands over the table: as for dpx_table_read; or whoever sets the cell: cell_masks_len is not
 *                  depth, or one of these bytes is over 01
 *   5 DPX_SIZE     whoever hands over the table: store_len is over 16,777,216
 *  15 DPX_CELL     whoever sets the cell: `cell` is `cells` or more
 *  18 DPX_HIDDEN   whoever sets the cell: the plane is 00 there
 *  16 DPX_FULL     whoever sets the cell: with the lengths of the other cells the value, if it is not dropped, is over store_len
 */
uint32_t dpx_guest_edit(dpx_kind kind, uint64_t cells,
                        const uint8_t *rights, size_t rights_len,
                        uint8_t *masks, size_t masks_len,
                        uint64_t *starts, size_t starts_len,
                        uint64_t *cell_lengths, size_t cell_lengths_len,
                        uint8_t *store, size_t store_len,
                        uint64_t cell,
                        const uint8_t *cell_masks, size_t cell_masks_len,
                        const uint8_t *value, size_t value_len);

/*
 * Moves the next chunk of a live table to the new form: the lowest-numbered one that is still old.
 *
 * Its cells are written to the area right behind the strings moved before, with an index of width 8 at the start; bytes behind
 * the last cell of its old string are left out. moved_lengths[moved] gets the length of that string, and `moved` + 1 is to be
 * handed over from then on: it is the number that lengths[1] names. All other entries, the area around the string, and the old
 * bytes stay as they are.
 * A table of m old chunks needs m calls that answer 0 with lengths[0] above 0. Where no chunk is old the answer is 0 too, and
 * nothing changes but `lengths`: none is left. A call that is refused changes nothing; after 6 it may be made again with a
 * longer area that begins with the same moved strings.
 * Enough room: dpx_area_room, of all chunks for all steps.
 *
 *   lengths[0]   bytes entered, at least 24; 0 where none is left
 *   lengths[1]   chunks moved now
 *
 * Refusals, in this order:
 *   2 DPX_SHAPE    whoever describes the table
 *   3 DPX_SUBSET   whoever describes the table: as for dpx_merge
 *   4 DPX_CONTENT  whoever hands over the table: old_lengths_len or moved_lengths_len is not the count of chunks; the old
 *                  lengths do not sum to old_len; `moved` is over the count of chunks; or the first `moved` of moved_lengths
 *                  sum to more than area_len
 *  12 DPX_COVER    whoever hands over the table: the subsets miss a cell or hold one twice, so also if there is none
 *   for each chunk, in the order of the list; of an old one, in the bytes that its length says:
 *   7 DPX_SHORT    whoever stored the bytes: under 4 * (1 + cells) bytes
 *   9 DPX_COUNT    whoever stored the bytes: the stored count is not that of its cells
 *  11 DPX_PAST_END whoever stored the bytes: a length field or a cell runs past the end
 *   5 DPX_SIZE     whoever hands over the table: its cells sum up to over 8,589,934,592 bytes
 *   or of a moved one:
 *   7 DPX_SHORT    whoever stored the bytes: under 8 bytes
 *   8 DPX_LENGTH   whoever stored the bytes: index or data, as for dpx_decode
 *  10 DPX_FALLING  whoever stored the bytes: the first offset is not 0, or offsets fall
 *   5 DPX_SIZE     whoever hands over the table: the stored last offset is over 8,589,934,592
 *   last:
 *   6 DPX_OUTPUT   whoever lends the area: it is too short for the next chunk; never where none is left
 */
uint32_t dpx_migrate_step(const uint64_t *shape, size_t shape_len,
                          const uint64_t *subsets, size_t subsets_len,
                          const uint64_t *old_lengths, size_t old_lengths_len,
                          const uint8_t *old, size_t old_len,
                          uint64_t moved,
                          uint64_t *moved_lengths, size_t moved_lengths_len,
                          uint8_t *area, size_t area_len,
                          uint64_t lengths[2]);

/*
 * The cells of a subset out of a live table, however many of its chunks are moved.
 *
 * The values of the subset's cells, in row order, each from the chunk that holds it, end to end from offset 0. A subset of no
 * cells is allowed: there are no values then, and the one offset 0. The table is not changed.
 * What comes out is what the chunks, each read with its call and all put together with dpx_merge, have in these cells.
 * Enough room: dpx_array_room with old_len + area_len. That is as many values as the cells have bytes, and one offset more than
 * the subset has cells.
 *
 *   lengths[0]   value bytes written
 *   lengths[1]   offsets written: cells of the subset + 1
 *
 * Refusals, in this order:
 *   2 DPX_SHAPE    whoever describes the table
 *   3 DPX_SUBSET   whoever describes the table: `subsets` as for dpx_merge, or `subset` as for dpx_extract
 *   4 DPX_CONTENT  whoever hands over the table: as for dpx_migrate_step
 *  12 DPX_COVER    whoever hands over the table: the subsets miss a cell or hold one twice, so also if there is none
 *   for each chunk, in the order of the list, as for dpx_migrate_step; of an old one:
 *   7 DPX_SHORT    whoever stored the bytes
 *   9 DPX_COUNT    whoever stored the bytes
 *  11 DPX_PAST_END whoever stored the bytes
 *   5 DPX_SIZE     whoever hands over the table
 *   or of a moved one:
 *   7 DPX_SHORT    whoever stored the bytes
 *   8 DPX_LENGTH   whoever stored the bytes
 *  10 DPX_FALLING  whoever stored the bytes
 *   5 DPX_SIZE     whoever hands over the table
 *   then:
 *   5 DPX_SIZE     whoever hands over the table: the cells of the subset sum up to over 8,589,934,592 bytes; what the other
 *                  cells have does not count
 *   6 DPX_OUTPUT   whoever lends the outputs
 */
uint32_t dpx_migrate_extract(const uint64_t *shape, size_t shape_len,
                             const uint64_t *subsets, size_t subsets_len,
                             const uint64_t *subset, size_t subset_len,
                             const uint64_t *old_lengths, size_t old_lengths_len,
                             const uint8_t *old, size_t old_len,
                             uint64_t moved,
                             const uint64_t *moved_lengths, size_t moved_lengths_len,
                             const uint8_t *area, size_t area_len,
                             uint8_t *out_values, size_t out_values_len,
                             uint64_t *out_offsets, size_t out_offsets_len,
                             uint64_t lengths[2]);

#ifdef __cplusplus
}
#endif

#endif
