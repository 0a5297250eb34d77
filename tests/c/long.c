/*
 * Long arrays from C: what an index of width 4 and a length of the older form hold, 4,294,967,295; the most value bytes that there may be,
 * 8,589,934,592, written, read, read in part and merged; and one byte more of each.
 *
 * It takes little memory. Values that no call may look at, and outputs that no call may change, are addresses without access: a byte read
 * or written there ends the test. Long values that are read repeat a pattern, and long outputs lie in memory that repeats: of its stretches
 * of 2 MiB the first, the last and perhaps one more are their own, all others are one and the same. So what a call wrote there last is what it
 * wrote in each of them.
 */
#define _GNU_SOURCE
#include "read_faults.h"

#include <sys/mman.h>
#include <sys/resource.h>
#include <unistd.h>

enum { STRETCH = 1 << 21, PERIOD = 251 };
static const uint64_t MOST = DPX_MAX_VALUE_BYTES, FIELD = UINT32_MAX;

/* A failure, but where the address space is limited: there it is said that nothing was tried. */
static void *mapped(void *at, size_t size, int access, int flags, int file, size_t from)
{
    struct rlimit limit;
    void *p = mmap(at, size, access, flags, file, (off_t)from);
    if (p != MAP_FAILED)
        return p;
    if (getrlimit(RLIMIT_AS, &limit) == 0 && limit.rlim_cur != RLIM_INFINITY) {
        printf("long arrays from C: NOT TRIED: the address space is limited to %" PRIu64 " bytes (ulimit -v), and these take 32 GiB of it\n",
               (uint64_t)limit.rlim_cur);
        exit(0);
    }
    perror("FAILED: no addresses for the test");
    exit(2);
}

/* Bytes that nobody may touch. */
static uint8_t *untouched(size_t size)
{
    return mapped(NULL, size, PROT_NONE, MAP_PRIVATE | MAP_ANONYMOUS | MAP_NORESERVE, -1, 0);
}

static int file_of(size_t size)
{
    const int file = memfd_create("long", 0);
    if (file < 0 || ftruncate(file, (off_t)size) != 0) {
        perror("FAILED: no memory file");
        exit(2);
    }
    return file;
}

/* Bytes of which few are written: the others are holes of a file that lies in memory. */
static uint8_t *sparse(size_t size)
{
    const int file = file_of(size);
    uint8_t *p = mapped(NULL, size, PROT_READ | PROT_WRITE, MAP_SHARED, file, 0);
    close(file);
    return p;
}

/* Bytes in stretches; that of the byte `own` is its own. What lies behind them must not be touched. */
static uint8_t *folded(size_t size, size_t own)
{
    const size_t stretches = (size + STRETCH - 1) / STRETCH;
    const int file = file_of(4 * (size_t)STRETCH);
    uint8_t *p = untouched((stretches + 1) * STRETCH);
    size_t i;
    for (i = 0; i < stretches; i++)
        mapped(p + i * STRETCH, STRETCH, PROT_READ | PROT_WRITE, MAP_SHARED | MAP_FIXED, file,
               (size_t)STRETCH * (i == 0 ? 0 : i == stretches - 1 ? 1 : i == own / STRETCH ? 2 : 3));
    close(file);
    return p;
}

static void unfold(uint8_t *p, size_t size) { munmap(p, ((size + STRETCH - 1) / STRETCH + 1) * STRETCH); }

/* The pattern repeats with a stretch, so that it is the same in all of them. */
static uint8_t pattern(uint64_t at) { return (uint8_t)(1 + at % STRETCH % PERIOD); }

/* `size` bytes of the pattern from `at` on; beside them both ends of the stretch that they share. */
static void check_pattern(const uint8_t *p, size_t size, uint64_t at, int line)
{
    size_t i, wrong = 0;
    for (i = 0; i < 3 * (size_t)STRETCH; i++)
        wrong += p[i] != pattern(at + i);
    for (i = size - STRETCH; i < size; i++)
        wrong += p[i] != pattern(at + i);
    check(wrong == 0, "the pattern is there, in each stretch", line);
}

static void fill_pattern(uint8_t *p, size_t size)
{
    size_t i;
    for (i = 0; i < 2 * (size_t)STRETCH; i++)
        p[i] = pattern(i);
    for (i = (size - 1) / STRETCH * STRETCH; i < size; i++)
        p[i] = pattern(i);
}

static void fill(uint8_t *p, size_t size)
{
    memset(p, FILL, 2 * (size_t)STRETCH);
    memset(p + (size - 1) / STRETCH * STRETCH, FILL, STRETCH);
}

static dpx_kind ragged(uint64_t depth, uint64_t width) { return dpx_ragged(depth, width, DPX_START); }

static void put_number(uint8_t *at, uint64_t number, size_t width)
{
    size_t i;
    for (i = 0; i < width; i++)
        at[i] = (uint8_t)(number >> (8 * i));
}

/* Bytes that nobody may touch, some more than the most; and lengths, which stay as they were where a call is refused. */
static uint8_t *none;
static uint64_t lengths[3];
#define ONE (const uint64_t[]){1}, 1
#define TWO (const uint64_t[]){2}, 1
#define OFFSETS(...) (const uint64_t[]){__VA_ARGS__}, sizeof((const uint64_t[]){__VA_ARGS__}) / sizeof(uint64_t)
#define MASKS(...) (const uint8_t[]){__VA_ARGS__}, sizeof((const uint8_t[]){__VA_ARGS__})
/* Refused before a value is looked at, and nothing is written, however much is lent. */
#define KEPT(call, wanted)                                                               \
    do {                                                                                 \
        lengths[0] = lengths[1] = lengths[2] = FILL64;                                   \
        ANSWERS(call, wanted);                                                           \
        CHECK(lengths[0] == FILL64 && lengths[1] == FILL64 && lengths[2] == FILL64);     \
    } while (0)

/* ------------------------------------------------------------------------------ what a field of 4 bytes does not hold */

/* S10.55 of docs/SPEC.md. 20 stands behind 5 and before 6. */
static void test_writing(void)
{
    const size_t room = MOST;
    KEPT(dpx_encode(ragged(0, 8), ONE, NONE, none, MOST, OFFSETS(0, MOST), none, MOST + 23, lengths), DPX_OUTPUT);
    KEPT(dpx_encode(ragged(0, 8), ONE, NONE, none, MOST + 1, OFFSETS(0, MOST + 1), none, MOST + 25, lengths), DPX_SIZE);
    KEPT(dpx_encode(ragged(0, 4), ONE, NONE, none, FIELD + 1, OFFSETS(0, FIELD + 1), none, room, lengths), DPX_FIELD);
    KEPT(dpx_encode(ragged(0, 4), ONE, NONE, none, FIELD + 1, OFFSETS(0, FIELD + 1), NONE, lengths), DPX_FIELD);
    KEPT(dpx_encode(ragged(0, 4), ONE, NONE, none, FIELD, OFFSETS(0, FIELD), NONE, lengths), DPX_OUTPUT);
    KEPT(dpx_encode(ragged(0, 4), ONE, NONE, none, FIELD, OFFSETS(0, FIELD), none, FIELD + 15, lengths), DPX_OUTPUT);
    KEPT(dpx_encode(dpx_ragged(0, 4, DPX_END), ONE, NONE, none, FIELD + 1, OFFSETS(0, FIELD + 1), none, room, lengths), DPX_FIELD);
    KEPT(dpx_encode(ragged(0, 4), ONE, NONE, none, MOST, OFFSETS(0, MOST), NONE, lengths), DPX_FIELD);
    KEPT(dpx_encode(ragged(0, 4), ONE, NONE, none, MOST + 1, OFFSETS(0, MOST + 1), NONE, lengths), DPX_SIZE);
    KEPT(dpx_encode(ragged(0, 4), TWO, NONE, none, FIELD + 1, OFFSETS(0, 3, FIELD + 1), none, room, lengths), DPX_FIELD);
    KEPT(dpx_encode(ragged(0, 4), ONE, NONE, none, FIELD + 2, OFFSETS(1, FIELD + 2), none, room, lengths), DPX_CONTENT);
    KEPT(dpx_encode(ragged(5, 4), ONE, NONE, none, FIELD + 1, OFFSETS(0, FIELD + 1), none, room, lengths), DPX_KIND);
    KEPT(dpx_encode(ragged(0, 4), (const uint64_t[]){65537}, 1, NONE, none, FIELD + 1, OFFSETS(0, FIELD + 1), none, room, lengths), DPX_SHAPE);
}

/* By what is written: bytes of a cell behind a null do not count, and where no cell is left no offset is written. */
static void test_what_is_left(void)
{
    const uint8_t last[39] = {2, 0, 0, 0, 0, 0, 0, 0, 21, 0, 0, 0, 0, 0, 0, 0, 0, 1, 8, 0, 0, 0, 0, 0, 0, 0, 0, 0, 0, 0, 5, 0, 0, 0, 1, 2, 3, 4, 5};
    const dpx_kind kind = ragged(1, 4);
    uint8_t *values = untouched(FIELD + 6), out[64];

    /* The page of the last five bytes alone may be read. */
    if (mprotect(values + FIELD / 4096 * 4096, 8192, PROT_READ | PROT_WRITE) != 0)
        exit(2);
    memcpy(values + FIELD + 1, last + 34, 5);
    memset(out, FILL, sizeof out);
    ANSWERS(dpx_encode(kind, TWO, MASKS(0, 1), values, FIELD + 6, OFFSETS(0, FIELD + 1, FIELD + 6), out, sizeof out, lengths), DPX_OK);
    CHECK(lengths[0] == 39 && memcmp(out, last, 39) == 0 && out[39] == FILL);
    ANSWERS(dpx_encode(kind, TWO, MASKS(0, 0), none, FIELD + 6, OFFSETS(0, FIELD + 1, FIELD + 6), out, sizeof out, lengths), DPX_OK);
    CHECK(lengths[0] == 18 && out[0] == 2 && filled(out + 39, 25));
    KEPT(dpx_encode(kind, TWO, MASKS(0, 1), none, FIELD + 6, OFFSETS(0, FIELD + 1, FIELD + 6), none, 38, lengths), DPX_OUTPUT);
    KEPT(dpx_encode(kind, TWO, MASKS(1, 0), none, FIELD + 6, OFFSETS(0, FIELD + 1, FIELD + 6), none, MOST, lengths), DPX_FIELD);
    KEPT(dpx_encode(kind, TWO, MASKS(1, 1), none, FIELD + 6, OFFSETS(0, FIELD + 1, FIELD + 6), NONE, lengths), DPX_FIELD);
    KEPT(dpx_encode(kind, TWO, MASKS(1, 1), none, FIELD + 1, OFFSETS(0, FIELD, FIELD + 1), NONE, lengths), DPX_FIELD);
    KEPT(dpx_encode(kind, TWO, MASKS(1, 0), none, FIELD + 1, OFFSETS(0, FIELD, FIELD + 1), NONE, lengths), DPX_OUTPUT);
    KEPT(dpx_encode(dpx_packed(kind), TWO, MASKS(1, 0), none, FIELD + 6, OFFSETS(0, FIELD + 1, FIELD + 6), none, MOST, lengths), DPX_FIELD);
    KEPT(dpx_encode(ragged(2, 4), TWO, MASKS(1, 1, 1, 0), none, FIELD + 6, OFFSETS(0, FIELD + 1, FIELD + 6), none, MOST, lengths), DPX_FIELD);
    KEPT(dpx_encode(ragged(2, 4), TWO, MASKS(1, 1, 0, 1), none, FIELD + 6, OFFSETS(0, FIELD + 1, FIELD + 6), NONE, lengths), DPX_OUTPUT);
    KEPT(dpx_encode(ragged(1, 8), TWO, MASKS(1, 1), none, FIELD + 6, OFFSETS(0, FIELD + 1, FIELD + 6), NONE, lengths), DPX_OUTPUT);
    KEPT(dpx_encode(kind, TWO, MASKS(1, 2), none, FIELD + 6, OFFSETS(0, FIELD + 1, FIELD + 6), NONE, lengths), DPX_CONTENT);
    munmap(values, FIELD + 6);
}

/* By each cell, whatever the width is and the sum. */
static void test_older(void)
{
    uint64_t width;
    for (width = 4; width <= 8; width += 4) {
        const dpx_kind kind = ragged(0, width);
        KEPT(dpx_encode_interleaved(kind, ONE, NONE, none, FIELD + 1, OFFSETS(0, FIELD + 1), none, MOST, lengths), DPX_FIELD);
        KEPT(dpx_encode_interleaved(kind, ONE, NONE, none, FIELD + 1, OFFSETS(0, FIELD + 1), NONE, lengths), DPX_FIELD);
        KEPT(dpx_encode_interleaved(kind, ONE, NONE, none, FIELD, OFFSETS(0, FIELD), none, FIELD + 7, lengths), DPX_OUTPUT);
        KEPT(dpx_encode_interleaved(kind, ONE, NONE, none, MOST, OFFSETS(0, MOST), NONE, lengths), DPX_FIELD);
        KEPT(dpx_encode_interleaved(kind, ONE, NONE, none, MOST + 1, OFFSETS(0, MOST + 1), NONE, lengths), DPX_SIZE);
        KEPT(dpx_encode_interleaved(kind, TWO, NONE, none, 2 * FIELD, OFFSETS(0, FIELD, 2 * FIELD), none, 2 * FIELD + 11, lengths), DPX_OUTPUT);
        KEPT(dpx_encode_interleaved(kind, TWO, NONE, none, 2 * FIELD, OFFSETS(0, FIELD + 1, 2 * FIELD), none, MOST, lengths), DPX_FIELD);
        KEPT(dpx_encode_interleaved(kind, TWO, NONE, none, 2 * FIELD, OFFSETS(0, FIELD - 1, 2 * FIELD), none, MOST, lengths), DPX_FIELD);
        KEPT(dpx_encode_interleaved(kind, ONE, NONE, none, FIELD + 1, OFFSETS(1, FIELD + 1), none, MOST, lengths), DPX_CONTENT);
    }
}

/* ------------------------------------------------------------------------------------------- the longest that there is */

/* Written, read and read in part: what the index says is at both ends, and in each stretch the pattern. */
static void longest(dpx_kind kind, uint64_t most)
{
    const size_t head = 8 + 2 * kind.size, size = most + head, data = kind.order == DPX_START ? head : 0;
    uint8_t *values = folded(most, 0), *stored = folded(size, 0), *back = folded(most, 0);
    const uint8_t *index = kind.order == DPX_START ? stored + 8 : stored + most, *count = kind.order == DPX_START ? stored : index + 2 * kind.size;
    uint64_t offsets[3] = {7, 7, 7}, number = 0;

    fill_pattern(values, most);
    fill(stored, size);
    ANSWERS(dpx_encode(kind, ONE, NONE, values, most, OFFSETS(0, most), stored, size, lengths), DPX_OK);
    CHECK(lengths[0] == size);
    CHECK(count[0] == 2 * kind.size && count[1] == 0 && count[7] == 0);
    memcpy(&number, index, kind.size);
    CHECK(number == 0);
    memcpy(&number, index + kind.size, kind.size);
    CHECK(number == most);
    check_pattern(stored + data, most, 0, __LINE__);

    fill(back, most);
    ANSWERS(dpx_decode(kind, ONE, stored, size, NONE, back, most, offsets, 3, lengths), DPX_OK);
    CHECK(lengths[0] == 0 && lengths[1] == most && lengths[2] == 2 && offsets[0] == 0 && offsets[1] == most && offsets[2] == 7);
    check_pattern(back, most, 0, __LINE__);

    fill(back, most);
    offsets[0] = offsets[1] = 7;
    ANSWERS(dpx_partial_decode(kind.size, kind.order, ONE, OFFSETS(0, 1), stored, size, back, most, offsets, 3, lengths), DPX_OK);
    CHECK(lengths[0] == most && lengths[1] == 2 && offsets[0] == 0 && offsets[1] == most && offsets[2] == 7);
    check_pattern(back, most, 0, __LINE__);

    /* One byte less of an output, and one byte less of what is stored. */
    KEPT(dpx_encode(kind, ONE, NONE, none, most, OFFSETS(0, most), none, size - 1, lengths), DPX_OUTPUT);
    KEPT(dpx_decode(kind, ONE, stored, size, NONE, none, most - 1, offsets, 3, lengths), DPX_OUTPUT);
    if (kind.order == DPX_START)
        KEPT(dpx_decode(kind, ONE, stored, size - 1, NONE, none, most, offsets, 3, lengths), DPX_LENGTH);
    CHECK(offsets[0] == 0 && offsets[1] == most);
    unfold(values, most);
    unfold(stored, size);
    unfold(back, most);
}

/* Two halves, whose patterns both begin anew; a cell behind a long one. */
static void test_merge_and_cut(void)
{
    const uint64_t half = MOST / 2;
    uint8_t *values = folded(MOST, 0), *back = folded(MOST, 0), small[8];
    uint64_t offsets[3] = {7, 7, 7};

    fill_pattern(values, MOST);
    fill(back, MOST);
    ANSWERS(dpx_merge(ragged(0, 8), TWO, OFFSETS(1, 1, 0, 1), NONE, values, MOST, OFFSETS(0, half + 3, 0, half - 3), NONE, back, MOST, offsets, 3,
                      lengths), DPX_OK);
    CHECK(lengths[0] == 0 && lengths[1] == MOST && lengths[2] == 3 && offsets[0] == 0 && offsets[1] == half - 3 && offsets[2] == MOST);
    /* Cell 0 is the second chunk, which begins three bytes behind a stretch. */
    check_pattern(back + half - 3, half + 3, 0, __LINE__);
    CHECK(back[0] == pattern(3) && back[1] == pattern(4) && back[STRETCH - 1] == pattern(STRETCH + 2));

    memset(small, FILL, sizeof small);
    ANSWERS(dpx_extract(ragged(0, 8), TWO, OFFSETS(1, 1), NONE, values, MOST, OFFSETS(0, MOST - 5, MOST), NONE, small, 5, offsets, 2, lengths), DPX_OK);
    CHECK(lengths[1] == 5 && offsets[1] == 5 && small[0] == pattern(MOST - 5) && small[4] == pattern(MOST - 1) && small[5] == FILL);
    ANSWERS(dpx_guest_read(ragged(1, 8), TWO, MASKS(0, 1), MASKS(1, 1), values, MOST, OFFSETS(0, MOST - 5, MOST), small + 6, 2, small, 5, offsets, 3,
                           lengths), DPX_OK);
    CHECK(lengths[1] == 5 && offsets[1] == 0 && offsets[2] == 5 && small[6] == 0 && small[7] == 1);
    ANSWERS(dpx_guest_read(ragged(1, 8), ONE, MASKS(0), MASKS(1), none, MOST, OFFSETS(0, MOST), small, 1, NONE, offsets, 2, lengths), DPX_OK);
    CHECK(lengths[1] == 0 && offsets[1] == 0 && small[0] == 0);

    unfold(values, MOST);
    unfold(back, MOST);
}

/* The older form takes three cells for as much: two of the longest, and the two bytes that are left. */
static void test_longest_older(void)
{
    const size_t size = MOST + 16, second = 8 + FIELD;
    uint8_t *values = folded(MOST, 0), *older = folded(size, second), *back = folded(MOST, 0);
    uint64_t offsets[5] = {7, 7, 7, 7, 7};

    fill_pattern(values, MOST);
    fill(older, size);
    ANSWERS(dpx_encode_interleaved(ragged(0, 4), (const uint64_t[]){3}, 1, NONE, values, MOST, OFFSETS(0, FIELD, 2 * FIELD, MOST), older, size,
                                   lengths), DPX_OK);
    CHECK(lengths[0] == size);
    CHECK(memcmp(older, "\3\0\0\0\xFF\xFF\xFF\xFF", 8) == 0 && memcmp(older + second, "\xFF\xFF\xFF\xFF", 4) == 0);
    CHECK(memcmp(older + 12 + 2 * FIELD, "\2\0\0\0", 4) == 0 && older[8] == pattern(0) && older[STRETCH - 1] == pattern(STRETCH - 9));
    CHECK(older[second - 1] == pattern(FIELD - 1) && older[second + 4] == pattern(FIELD) && older[size - 1] == pattern(MOST - 1));

    /* The first cell is no longer there as it was written, but in its first stretch: the second was written over it. */
    fill(back, MOST);
    ANSWERS(dpx_decode_interleaved(3, older, size, back, MOST, offsets, 5, lengths), DPX_OK);
    CHECK(lengths[0] == MOST && lengths[1] == 4 && offsets[0] == 0 && offsets[1] == FIELD && offsets[2] == 2 * FIELD && offsets[3] == MOST);
    CHECK(offsets[4] == 7 && back[0] == pattern(0) && back[STRETCH / 2] == pattern(STRETCH / 2));
    check_pattern(back + STRETCH, MOST - STRETCH, 0, __LINE__);
    unfold(values, MOST);
    unfold(older, size);
    unfold(back, MOST);
}

/* ------------------------------------------------------------------------------------------------------- one byte more */

/* One more is 5: before 12, 20 and 6, after all else. Of each call at most one other refusal holds. */
static void test_over(void)
{
    const size_t cells = DPX_MAX_CELLS, frame = 17, over = MOST + 1, older_size = 4 + 3 * (4 + FIELD) + 4 * (cells + 1);
    const dpx_kind kind = ragged(0, 8), masked = ragged(1, 8), deep = ragged(5, 8);
    const uint64_t five[5] = {1, 1, 1, 1, 1}, all_five[10] = {0, 0, 0, 0, 0, 1, 1, 1, 1, 1};
    const uint8_t set[5] = {1, 1, 1, 1, 1}, neither = 2;
    uint8_t *older = sparse(older_size), *block_of_frames = sparse(5 * frame + over + 24), *stored = block_of_frames + 5 * frame, *outer;
    uint64_t *numbers = (uint64_t *)(void *)untouched(8 * (cells + 2));
    size_t i;
#define LENT2 none, over, numbers, 3, lengths
#define LENT3 none, 5, LENT2

    /* Three of the longest cells: two are never too many. */
    for (i = 0; i < 3; i++)
        put_number(older + 4 + i * (4 + FIELD), FIELD, 4);
    put_number(older, 3, 4);
    KEPT(dpx_decode_interleaved(3, older, older_size, none, over, numbers, 4, lengths), DPX_SIZE);
    KEPT(dpx_decode_interleaved(3, older, older_size, NONE, NONE, lengths), DPX_SIZE);
    KEPT(dpx_decode_interleaved(3, older, 4 + 3 * (4 + FIELD) - 1, LENT2), DPX_PAST_END);
    KEPT(dpx_decode_interleaved(2, older, older_size, LENT2), DPX_COUNT);
    put_number(older, cells, 4);
    KEPT(dpx_decode_interleaved(cells, older, older_size - 8, none, over, numbers, cells + 1, lengths), DPX_SIZE);
    put_number(older, cells + 1, 4);
    KEPT(dpx_decode_interleaved(cells + 1, older, older_size, none, over, numbers, cells + 2, lengths), DPX_SHAPE);
    put_number(older, 2, 4);
    KEPT(dpx_decode_interleaved(2, older, older_size, NONE, NONE, lengths), DPX_OUTPUT);

    put_number(stored, 16, 8);
    put_number(stored + 16, over, 8);
    KEPT(dpx_decode(kind, ONE, stored, over + 24, LENT3), DPX_SIZE);
    KEPT(dpx_decode(kind, ONE, stored, over + 24, NONE, NONE, NONE, lengths), DPX_SIZE);
    KEPT(dpx_decode(kind, five, 5, stored, over + 24, LENT3), DPX_SHAPE);
    KEPT(dpx_partial_decode(8, DPX_START, ONE, OFFSETS(0, 1), stored, over + 24, LENT2), DPX_SIZE);
    KEPT(dpx_partial_decode(8, DPX_START, ONE, OFFSETS(0, 0), stored, over + 24, NONE, NONE, lengths), DPX_SIZE);
    KEPT(dpx_partial_decode(256 + 8, DPX_START, ONE, OFFSETS(0, 1), stored, over + 24, LENT2), DPX_KIND);
    KEPT(dpx_partial_decode(8, DPX_START, five, 5, all_five, 10, stored, over + 24, LENT2), DPX_SHAPE);
    KEPT(dpx_partial_decode(8, DPX_START, ONE, OFFSETS(0, 2), stored, over + 24, LENT2), DPX_SUBSET);
    for (i = 0; i < 5; i++) {
        outer = stored - (i + 1) * frame;
        put_number(outer, 1, 8);
        put_number(outer + 8, over + 24 + i * frame, 8);
        outer[16] = 1;
    }
    KEPT(dpx_decode(ragged(4, 8), ONE, stored - 4 * frame, over + 24 + 4 * frame, LENT3), DPX_SIZE);
    KEPT(dpx_decode(deep, ONE, block_of_frames, over + 24 + 5 * frame, LENT3), DPX_KIND);
    put_number(stored + 8, 1, 8);
    KEPT(dpx_decode(kind, ONE, stored, over + 24, LENT3), DPX_FALLING);
    KEPT(dpx_partial_decode(8, DPX_START, ONE, OFFSETS(0, 1), stored, over + 24, LENT2), DPX_FALLING);

#define VALUES none, over, OFFSETS(0, over)
#define LATE none, over, OFFSETS(1, over)
    KEPT(dpx_encode(deep, ONE, set, 5, VALUES, none, over, lengths), DPX_KIND);
    KEPT(dpx_encode(kind, five, 5, NONE, VALUES, none, over, lengths), DPX_SHAPE);
    KEPT(dpx_encode(kind, ONE, NONE, LATE, none, over, lengths), DPX_CONTENT);
    KEPT(dpx_encode(kind, ONE, NONE, VALUES, NONE, lengths), DPX_SIZE);
    KEPT(dpx_encode_interleaved(deep, ONE, set, 5, VALUES, none, over, lengths), DPX_KIND);
    KEPT(dpx_encode_interleaved(kind, five, 5, NONE, VALUES, none, over, lengths), DPX_SHAPE);
    KEPT(dpx_encode_interleaved(kind, ONE, NONE, LATE, none, over, lengths), DPX_CONTENT);

    KEPT(dpx_extract(kind, ONE, OFFSETS(0, 1), NONE, VALUES, LENT3), DPX_SIZE);
    KEPT(dpx_extract(kind, ONE, OFFSETS(0, 0), NONE, VALUES, NONE, NONE, NONE, lengths), DPX_SIZE);
    KEPT(dpx_extract(deep, ONE, OFFSETS(0, 1), set, 5, VALUES, LENT3), DPX_KIND);
    KEPT(dpx_extract(kind, five, 5, all_five, 10, NONE, VALUES, LENT3), DPX_SHAPE);
    KEPT(dpx_extract(kind, ONE, OFFSETS(0, 2), NONE, VALUES, LENT3), DPX_SUBSET);
    KEPT(dpx_extract(kind, ONE, OFFSETS(0, 1), NONE, LATE, LENT3), DPX_CONTENT);

    KEPT(dpx_merge(kind, ONE, OFFSETS(0, 1), NONE, VALUES, LENT3), DPX_SIZE);
    KEPT(dpx_merge(kind, ONE, OFFSETS(0, 1), NONE, VALUES, NONE, NONE, NONE, lengths), DPX_SIZE);
    KEPT(dpx_merge(deep, ONE, OFFSETS(0, 1), set, 5, VALUES, LENT3), DPX_KIND);
    KEPT(dpx_merge(kind, five, 5, all_five, 10, NONE, VALUES, LENT3), DPX_SHAPE);
    KEPT(dpx_merge(kind, ONE, OFFSETS(0, 2), NONE, none, over, OFFSETS(0, over, over), LENT3), DPX_SUBSET);
    KEPT(dpx_merge(kind, ONE, OFFSETS(0, 1), set, 1, VALUES, LENT3), DPX_CONTENT);
    KEPT(dpx_merge(kind, ONE, OFFSETS(0, 1), NONE, LATE, LENT3), DPX_CONTENT);
    /* 4 of a mask byte comes before 5. */
    KEPT(dpx_encode(masked, ONE, &neither, 1, VALUES, none, over, lengths), DPX_CONTENT);
    KEPT(dpx_extract(masked, ONE, OFFSETS(0, 1), &neither, 1, VALUES, LENT3), DPX_CONTENT);
    KEPT(dpx_merge(masked, ONE, OFFSETS(0, 1), &neither, 1, VALUES, LENT3), DPX_CONTENT);
    KEPT(dpx_encode(masked, ONE, set, 1, VALUES, none, over, lengths), DPX_SIZE);
    /* Hidden bytes count, as they did. */
    KEPT(dpx_encode(masked, ONE, MASKS(0), VALUES, none, over, lengths), DPX_SIZE);
    KEPT(dpx_guest_read(masked, ONE, MASKS(0), MASKS(0), VALUES, LENT3), DPX_SIZE);
    /* 5 comes before 12, and 12 before 6. */
    KEPT(dpx_merge(kind, TWO, OFFSETS(0, 1, 0, 1), NONE, none, MOST, OFFSETS(0, MOST / 2, 0, MOST / 2), LENT3), DPX_COVER);
    KEPT(dpx_merge(kind, TWO, OFFSETS(0, 1, 0, 1), NONE, none, over, OFFSETS(0, MOST / 2, 0, MOST / 2 + 1), LENT3), DPX_SIZE);
    KEPT(dpx_merge(kind, TWO, OFFSETS(1, 1, 0, 1), NONE, none, over, OFFSETS(0, MOST / 2, 0, MOST / 2 + 1), NONE, NONE, NONE, lengths), DPX_SIZE);
    KEPT(dpx_merge(kind, TWO, OFFSETS(1, 1, 0, 1), NONE, none, MOST, OFFSETS(0, MOST / 2, 0, MOST / 2), NONE, NONE, NONE, lengths), DPX_OUTPUT);
#undef VALUES
#undef LATE
#undef LENT3
#undef LENT2
    munmap(older, older_size);
    munmap(block_of_frames, 5 * frame + over + 24);
    munmap(numbers, 8 * (cells + 2));
}

/* Fixed cells count too: 2,048 boxes of 65,536 cells of 64 bytes are the most, and hold cells twice; and then one cell more. */
static void test_fixed_merge(void)
{
    const dpx_kind kind = dpx_fixed(0, DPX_MAX_SIZE, DPX_LITTLE);
    const uint64_t shape[1] = {DPX_MAX_CELLS};
    uint64_t boxes[2 * 2049];
    size_t i;
    for (i = 0; i < 2049; i++) {
        boxes[2 * i] = 0;
        boxes[2 * i + 1] = i < 2048 ? DPX_MAX_CELLS : 1;
    }
    KEPT(dpx_merge(kind, shape, 1, boxes, 2 * 2048, NONE, none, MOST, NONE, NONE, none, MOST, NONE, lengths), DPX_COVER);
    KEPT(dpx_merge(kind, shape, 1, boxes, 2 * 2049, NONE, none, MOST + 64, NONE, NONE, none, MOST, NONE, lengths), DPX_SIZE);
    KEPT(dpx_merge(kind, shape, 1, boxes, 2 * 2049, NONE, none, MOST, NONE, NONE, none, MOST, NONE, lengths), DPX_CONTENT);
}

/* A guest sees nothing of two long parts, which do not merge; what it sees of them does. */
static void test_hidden_parts(void)
{
    const uint64_t half = MOST / 2 + 1;
    uint8_t masks[2] = {FILL, FILL}, merged[2] = {FILL, FILL};
    uint64_t offsets[4] = {7, 7, 7, 7}, whole[3] = {7, 7, 7};
    KEPT(dpx_merge(ragged(1, 8), TWO, OFFSETS(0, 1, 1, 1), MASKS(1, 1), none, 2 * half - 1, OFFSETS(0, half, 0, half - 1), merged, 2, NONE, whole, 3,
                   lengths), DPX_SIZE);
    ANSWERS(dpx_guest_read(ragged(1, 8), ONE, MASKS(0), MASKS(1), none, half, OFFSETS(0, half), masks, 1, NONE, offsets, 2, lengths), DPX_OK);
    ANSWERS(dpx_guest_read(ragged(1, 8), ONE, MASKS(0), MASKS(1), none, half - 1, OFFSETS(0, half - 1), masks + 1, 1, NONE, offsets + 2, 2, lengths),
            DPX_OK);
    ANSWERS(dpx_merge(ragged(1, 8), TWO, OFFSETS(0, 1, 1, 1), masks, 2, NONE, offsets, 4, merged, 2, NONE, whole, 3, lengths), DPX_OK);
    CHECK(merged[0] == 0 && merged[1] == 0 && lengths[1] == 0 && whole[0] == 0 && whole[1] == 0 && whole[2] == 0);
}

/* The store's limit is its own. What is hidden is not put there; what does not fit is 6; and a longer store is 5. */
static void test_store(void)
{
    const size_t store = DPX_MAX_STORE;
    uint8_t mask[1] = {FILL}, *readable = block(store + 1);
    uint64_t starts[1] = {7}, cell_lengths[1] = {7}, four[4] = {7, 7, 7, 7};
    memset(readable, 1, store + 1);
#define MADE(masks, values, length, store_len) \
    dpx_table_make(ragged(1, 8), 1, masks, values, length, OFFSETS(0, length), mask, 1, starts, 1, cell_lengths, 1, none, store_len, four)
    ANSWERS(MADE(MASKS(1), readable, store + 1, store), DPX_OUTPUT);
    ANSWERS(MADE(MASKS(1), readable, store + 1, store + 1), DPX_SIZE);
    ANSWERS(MADE(MASKS(1), none, MOST, store), DPX_OUTPUT);
    ANSWERS(MADE(MASKS(0), none, MOST + 1, store), DPX_SIZE);
    ANSWERS(MADE(MASKS(2), none, MOST + 1, store + 1), DPX_CONTENT);
    CHECK(mask[0] == FILL && starts[0] == 7 && cell_lengths[0] == 7 && four[0] == 7 && four[3] == 7);
    ANSWERS(MADE(MASKS(0), none, MOST, store), DPX_OK);
    CHECK(mask[0] == 0 && starts[0] == 0 && cell_lengths[0] == 0 && four[3] == 0);
#undef MADE
    release();
}

/* A guest's read: 17, then 4 of the plane and of the array, then 5, also where each cell is hidden. */
static void test_guests(void)
{
    uint8_t *values = untouched(MOST + 1);
    if (mprotect(values, 4096, PROT_READ | PROT_WRITE) != 0)
        exit(2);
    values[0] = 7;
    read_faults(1, values, MOST + 1);
    munmap(values, MOST + 1);
}

int main(void)
{
    none = untouched(MOST + STRETCH);
    test_writing();
    test_what_is_left();
    test_older();
    longest(dpx_ragged(0, 4, DPX_START), FIELD);
    longest(dpx_ragged(0, 8, DPX_START), MOST);
    longest(dpx_ragged(0, 8, DPX_END), MOST);
    test_merge_and_cut();
    test_longest_older();
    test_over();
    test_fixed_merge();
    test_hidden_parts();
    test_store();
    test_guests();
    printf("long arrays from C: %lu checks, %lu failed\n", checks, failures);
    return failures == 0 ? 0 : 1;
}
