/* Every call of include/ravelbeam.h, over the archive that users link: what it answers, what it leaves in the memory
 * that it is lent, and that it touches nothing else. What is expected is document 01's, and of the reasons document 02's.
 * Run by tests/c/run; the first check that fails is printed, and ends the run with status 1. */

#include <stdio.h>
#include <stdlib.h>
#include <string.h>

#include "ravelbeam.h"

#define LENGTH(array) (sizeof(array) / sizeof *(array))
#define ONES UINT64_MAX

/* What is lent lies in the middle of this. */
enum { SIDE = 4, ROWS = RB_ROWS_NEEDED(RB_MAX_FRAMES), ENTRIES = RB_ENTRIES_NEEDED(RB_MAX_FRAMES, 512) };
struct memory {
    uint64_t rows[SIDE + ROWS + SIDE];
    uint16_t entries[SIDE + ENTRIES + SIDE];
};
static struct memory memory, before;
static uint64_t *const rows = memory.rows + SIDE;
static uint16_t *const entries = memory.entries + SIDE;

/* What every call of the lower level is given first. */
static size_t n, t, rows_len, entries_len;
#define LENT n, t, rows, rows_len, entries, entries_len

/* The results that calls are lent, each before the call a number that none answers. */
#define UNWRITTEN 0x5a5a5a5a
static size_t frame, probes, free_frames, free_huge, free_trees, huge, entries_changed, bitfields_changed, counts[19],
    offset, length, place, zeros;
static uint32_t yes, reason;
static uint64_t row;
static uint32_t last_code;

static void check(int line, int holds, const char *what)
{
    if (holds)
        return;
    printf("tests/c/ravelbeam.c or once.h, line %d: not so: %s\n", line, what);
    printf("with N = %zu, T = %zu, %zu rows and %zu entries lent; the last code is %u\n", n, t, rows_len, entries_len,
           last_code);
    exit(1);
}
#define CHECK(holds) check(__LINE__, holds, #holds)
#include "once.h"

/* A call that may write: one that is refused leaves all memory as it was, one that is done all but the needed rows and
 * entries. One that only asks leaves all of it. */
#define CALL(code, call) (prepare(), last_code = call, answered(__LINE__, #call " == " #code, code, code == RB_DONE))
#define ASK(code, call) (prepare(), last_code = call, answered(__LINE__, #call " == " #code, code, 0))

static void prepare(void)
{
    before = memory;
    frame = probes = free_frames = free_huge = free_trees = huge = entries_changed = bitfields_changed = UNWRITTEN;
    offset = length = place = zeros = row = UNWRITTEN;
    yes = reason = UNWRITTEN;
    for (size_t order = 0; order < LENGTH(counts); order++)
        counts[order] = UNWRITTEN;
}

static int unchanged(void)
{
    return memcmp(&memory, &before, sizeof memory) == 0;
}

static int unchanged_but(size_t row_count, size_t entry_count)
{
    size_t row_end = SIDE + row_count, entry_end = SIDE + entry_count;

    return memcmp(memory.rows, before.rows, SIDE * sizeof *rows) == 0 &&
           memcmp(memory.rows + row_end, before.rows + row_end, sizeof memory.rows - row_end * sizeof *rows) == 0 &&
           memcmp(memory.entries, before.entries, SIDE * sizeof *entries) == 0 &&
           memcmp(memory.entries + entry_end, before.entries + entry_end,
                  sizeof memory.entries - entry_end * sizeof *entries) == 0;
}

static void answered(int line, const char *call, uint32_t code, int may_write)
{
    check(line, last_code == code, call);
    if (may_write)
        check(line, unchanged_but(RB_ROWS_NEEDED(n), RB_ENTRIES_NEEDED(n, t)), "memory beyond the needed is as before");
    else
        check(line, unchanged(), "memory is as before");
}

/* Each call by what it is given, and then its code and its results, in the order of the lines of `trace`. */
#define FREE_ALL(code) CALL(code, rb_free_all(LENT))
#define RESERVE_ALL(code) CALL(code, rb_reserve_all(LENT))
#define GET(start_row, order, code, f, p) \
    (CALL(code, rb_get(LENT, start_row, order, &frame, &probes)), CHECK(frame == f && probes == p))
#define GET_AT(at, order, code, f, p) \
    (CALL(code, rb_get_at(LENT, at, order, &frame, &probes)), CHECK(frame == f && probes == p))
#define PUT(at, order, code) CALL(code, rb_put(LENT, at, order))
#define IS_FREE(at, order, code, y) (ASK(code, rb_is_free(LENT, at, order, &yes)), CHECK(yes == y))
#define STATS(code, f, h, y) \
    (ASK(code, rb_stats(LENT, &free_frames, &free_huge, &free_trees)), \
     CHECK(free_frames == f && free_huge == h && free_trees == y))
#define STATS_AT(at, order, code, f, h, y) \
    (ASK(code, rb_stats_at(LENT, at, order, &free_frames, &free_huge, &free_trees)), \
     CHECK(free_frames == f && free_huge == h && free_trees == y))
#define AUDIT(code, h, r) (ASK(code, rb_audit(LENT, &huge, &reason)), CHECK(huge == h && reason == r))
#define RECOVER(code, e, b) \
    (CALL(code, rb_recover(LENT, &entries_changed, &bitfields_changed)), \
     CHECK(entries_changed == e && bitfields_changed == b))
#define ROOM(at, code, c) (ASK(code, rb_room(LENT, at, counts)), CHECK(memcmp(counts, c, sizeof counts) == 0))
#define TREE_RUN(at, code, o, l) \
    (ASK(code, rb_tree_run(LENT, at, &offset, &length)), CHECK(offset == o && length == l))
#define WHY_GET(start_row, order, code, r) \
    (ASK(code, rb_why_get(LENT, start_row, order, &reason, &frame)), CHECK(reason == r && frame == 0))
#define WHY_GET_AT(at, order, code, r, f) \
    (ASK(code, rb_why_get_at(LENT, at, order, &reason, &frame)), CHECK(reason == r && frame == f))
#define WHY_PUT(at, order, code, r, f) \
    (ASK(code, rb_why_put(LENT, at, order, &reason, &frame)), CHECK(reason == r && frame == f))

#define SET(lent, start, end, value, code) CALL(code, rb_bitfield_set(rows, lent, start, end, value))
#define FILL(lent, value, code) CALL(code, rb_bitfield_fill(rows, lent, value))
#define TOGGLE(lent, at, order, expected, code) CALL(code, rb_bitfield_toggle(rows, lent, at, order, expected))
#define IS_ZERO(lent, at, order, code, y) \
    (ASK(code, rb_bitfield_is_zero(rows, lent, at, order, &yes)), CHECK(yes == y))
#define FIRST_ZEROS(lent, start_row, order, code, p) \
    (ASK(code, rb_bitfield_first_zeros(rows, lent, start_row, order, &place)), CHECK(place == p))
#define SET_FIRST_ZEROS(lent, start_row, order, code, p) \
    (CALL(code, rb_bitfield_set_first_zeros(rows, lent, start_row, order, &place)), CHECK(place == p))
#define COUNT_ZEROS(lent, code, z) (ASK(code, rb_bitfield_count_zeros(rows, lent, &zeros)), CHECK(zeros == z))
#define ROW_SEARCH(v, order, code, p, r) \
    (ASK(code, rb_first_zeros_aligned(v, order, &place, &row)), CHECK(place == p && row == r))

static void set_rows(size_t from, size_t to, uint64_t value)
{
    for (size_t x = from; x < to; x++)
        rows[x] = value;
}

static int rows_are(size_t from, size_t to, uint64_t value)
{
    while (from < to && rows[from] == value)
        from++;
    return from == to;
}

/* N frames in trees of T, and as much memory as they need and some more, of any contents. */
static void lend(size_t frames, size_t tree, size_t more)
{
    memset(&memory, 0xa5, sizeof memory);
    n = frames, t = tree;
    rows_len = RB_ROWS_NEEDED(n) + more, entries_len = RB_ENTRIES_NEEDED(n, t) + more;
}

static void start(size_t frames, size_t tree)
{
    lend(frames, tree, 3);
    FREE_ALL(RB_DONE);
}

/* Document 01, the whole input and output of `trace`. */
static void example(void)
{
    start(1000, 2);
    STATS(RB_DONE, 1000, 1, 0);
    GET(0, 0, RB_DONE, 0, 1);
    GET(3, 0, RB_DONE, 192, 1);
    GET(8, 9, RB_MEMORY, 0, 2);
    PUT(0, 0, RB_DONE);
    PUT(192, 0, RB_DONE);
    GET(8, 9, RB_DONE, 0, 2);
    PUT(64, 6, RB_DONE);
    STATS_AT(64, 9, RB_DONE, 64, 0, 0);
    GET(9, 6, RB_DONE, 576, 1);
    PUT(64, 6, RB_MEMORY);
    PUT(1000, 0, RB_BAD_RANGE);
    AUDIT(RB_DONE, 0, RB_SOUND);
    STATS(RB_DONE, 488, 0, 0);
}

/* Document 01, the table of lines to check: P1 to P12. */
static void lines_to_check(void)
{
    ROW_SEARCH(0, 0, RB_DONE, 0, 1);
    ROW_SEARCH(ONES, 0, RB_MEMORY, 0, 0);
    ROW_SEARCH(1, 1, RB_DONE, 2, 13);
    ROW_SEARCH(0x10, 2, RB_DONE, 0, 0x1f);
    ROW_SEARCH(1, 2, RB_DONE, 4, 0xf1);
    ROW_SEARCH(0x0101010101010101, 3, RB_MEMORY, 0, 0);
    ROW_SEARCH(1, 5, RB_DONE, 32, 0xffffffff00000001);
    ROW_SEARCH(0x8000000000000000, 5, RB_DONE, 0, 0x80000000ffffffff);
    ROW_SEARCH(1, 6, RB_MEMORY, 0, 0);

    start(512, 1);
    set_rows(0, 8, ONES);
    entries[0] = 0;
    PUT(0, 9, RB_MEMORY);

    RESERVE_ALL(RB_DONE);
    CHECK(entries[0] == RB_MARK && rows_are(0, 8, 0));
    PUT(0, 0, RB_DONE);
    CHECK(entries[0] == 1 && rows[0] == ONES - 1 && rows_are(1, 8, ONES));

    RESERVE_ALL(RB_DONE);
    rows[5] = 0x200;
    PUT(0, 0, RB_DAMAGE);
}

static const size_t no_room[19];

/* All calls are refused by N, T or the lengths, with every result 0. */
static void all_refused(uint32_t code)
{
    FREE_ALL(code);
    RESERVE_ALL(code);
    GET(0, 0, code, 0, 0);
    GET_AT(0, 0, code, 0, 0);
    PUT(0, 0, code);
    IS_FREE(0, 0, code, 0);
    STATS(code, 0, 0, 0);
    STATS_AT(0, 0, code, 0, 0, 0);
    AUDIT(code, 0, 0);
    RECOVER(code, 0, 0);
    ROOM(0, code, no_room);
    TREE_RUN(0, code, 0, 0);
    WHY_GET(0, 0, code, 0);
    WHY_GET_AT(0, 0, code, 0, 0);
    WHY_PUT(0, 0, code, 0, 0);
}

/* .. those on a block by the block. */
static void block_refused(size_t at, size_t order, uint32_t code)
{
    GET_AT(at, order, code, 0, 0);
    PUT(at, order, code);
    IS_FREE(at, order, code, 0);
    WHY_GET_AT(at, order, code, 0, 0);
    WHY_PUT(at, order, code, 0, 0);
}

/* .. those from a start row by the row. */
static void start_refused(size_t start_row, size_t order, uint32_t code)
{
    GET(start_row, order, code, 0, 0);
    WHY_GET(start_row, order, code, 0);
}

/* .. those on a frame by the frame. */
static void frame_refused(size_t at, uint32_t code)
{
    STATS_AT(at, 0, code, 0, 0, 0);
    ROOM(at, code, no_room);
    TREE_RUN(at, code, 0, 0);
}

/* Refusals 1, 2, 4, 5 and 6, and that the first that applies is given. */
static void bad_arguments(void)
{
    static const size_t bad_n[] = {0, RB_MAX_FRAMES + 1, SIZE_MAX}, bad_t[] = {0, 3, 513, 1024, SIZE_MAX};

    for (size_t i = 0; i < LENGTH(bad_n); i++) {
        start(1000, 2);
        n = bad_n[i];
        all_refused(RB_BAD_FRAMES);
        t = rows_len = entries_len = 0;
        all_refused(RB_BAD_FRAMES);
    }
    for (size_t i = 0; i < LENGTH(bad_t); i++) {
        start(1000, 2);
        t = bad_t[i];
        all_refused(RB_BAD_TREE);
        rows_len = entries_len = 0;
        all_refused(RB_BAD_TREE);
    }

    start(1000, 2);
    block_refused(0, 11, RB_BAD_ORDER);
    block_refused(1001, 64, RB_BAD_ORDER);
    block_refused(SIZE_MAX, SIZE_MAX, RB_BAD_ORDER);
    block_refused(0, 10, RB_BAD_RANGE);
    block_refused(1000, 0, RB_BAD_RANGE);
    block_refused(999, 1, RB_BAD_RANGE);
    block_refused(SIZE_MAX, 0, RB_BAD_RANGE);
    block_refused(SIZE_MAX - 511, 9, RB_BAD_RANGE);
    block_refused(997, 1, RB_BAD_ALIGNMENT);
    block_refused(256, 9, RB_BAD_ALIGNMENT);
    frame_refused(1000, RB_BAD_RANGE);
    frame_refused(SIZE_MAX, RB_BAD_RANGE);
    start_refused(0, 11, RB_BAD_ORDER);
    start_refused(16, SIZE_MAX, RB_BAD_ORDER);
    start_refused(16, 0, RB_BAD_RANGE);
    start_refused((size_t)1 << 58, 0, RB_BAD_RANGE);
    GET(15, 0, RB_DONE, 960, 1);
    GET_AT(999, 0, RB_DONE, 999, 1);
    rows_len = 0;
    block_refused(1000, 11, RB_BAD_LENT);
}

/* Document 02, W-206: in each huge frame orders 7 and 8 begin with the block of row % 8, and wrap. */
static void near_the_start(void)
{
    start(1024, 2);
    GET(5, 7, RB_DONE, 256, 1);
    GET(5, 7, RB_DONE, 384, 1);
    GET(5, 7, RB_DONE, 0, 1);
    GET(5, 8, RB_DONE, 768, 2);
    GET(5, 7, RB_DONE, 128, 1);
    GET(5, 7, RB_DONE, 512, 2);
    GET(8, 7, RB_DONE, 640, 1);
    GET(8, 7, RB_MEMORY, 0, 2);
}

/* A row with the bits of the frames below a number clear, and the others set. */
static uint64_t clear_below(size_t frames, size_t at)
{
    if (frames <= at * 64)
        return ONES;
    return frames - at * 64 < 64 ? ONES << (frames - at * 64) : 0;
}

/* The bits are clear below a frame and set from there on; every whole huge frame has one entry, a last partial one the
 * other, and absent ones have 0. */
static int state_is(size_t clear, size_t whole, size_t partial)
{
    for (size_t x = 0; x < rows_len; x++)
        if (rows[x] != clear_below(clear, x))
            return 0;
    for (size_t x = 0; x < entries_len; x++)
        if (entries[x] != (x < n / 512 ? whole : x == n / 512 ? partial : 0))
            return 0;
    return 1;
}

/* Both starts with exactly the memory that the header says, and with one row or entry less. */
static void sizes(void)
{
    for (size_t tree = 1; tree <= 512; tree *= 2) {
        const size_t frames[] = {1, 63, 64, 511, 512, 513, 512 * tree - 1, 512 * tree, 512 * tree + 1,
                                 RB_MAX_FRAMES - 1, RB_MAX_FRAMES};
        for (size_t i = 0; i < LENGTH(frames); i++) {
            lend(frames[i], tree, 0);
            rows_len--;
            all_refused(RB_BAD_LENT);
            rows_len++, entries_len--;
            all_refused(RB_BAD_LENT);
            entries_len++;

            FREE_ALL(RB_DONE);
            CHECK(state_is(n, 512, n % 512));
            AUDIT(RB_DONE, 0, RB_SOUND);
            STATS(RB_DONE, n, n / 512, n / (512 * t));
            RESERVE_ALL(RB_DONE);
            CHECK(state_is(n / 512 * 512, RB_MARK, 0));
            AUDIT(RB_DONE, 0, RB_SOUND);
            STATS(RB_DONE, 0, 0, 0);
        }
    }
}

/* Refusals 7 and 8 of get and put: with them a get still tells its probes. */
static void no_block(void)
{
    start(2048, 4);
    PUT(3, 0, RB_MEMORY);
    PUT(512, 9, RB_MEMORY);
    RESERVE_ALL(RB_DONE);
    GET(9, 0, RB_MEMORY, 0, 4);
    GET(9, 9, RB_MEMORY, 0, 4);
    GET(9, 10, RB_MEMORY, 0, 2);
    GET(9, 11, RB_MEMORY, 0, 1);
    GET_AT(512, 0, RB_MEMORY, 0, 1);
    GET_AT(0, 11, RB_MEMORY, 0, 1);

    start(512, 4);
    set_rows(0, 8, ONES);
    entries[0] = 0, entries[1] = 1;
    GET(0, 0, RB_DAMAGE, 0, 2);
    entries[0] = 513;
    GET(0, 0, RB_DAMAGE, 0, 1);
    GET_AT(8, 3, RB_DAMAGE, 0, 1);
    set_rows(0, 8, 0);
    entries[0] = entries[1] = 512;
    GET(0, 10, RB_DAMAGE, 0, 1);

    start(500, 1);
    set_rows(0, 8, ONES);
    rows[7] -= (uint64_t)1 << (500 - 7 * 64);
    entries[0] = 1;
    GET(0, 0, RB_DAMAGE, 0, 1);
}

/* What is borrowed and returned leaves the memory as it was: blocks of every order, at every T. */
static void borrow_and_return(void)
{
    static struct memory whole;

    for (size_t tree = 1; tree <= 512; tree *= 2) {
        size_t frames[3 * 19], orders[3 * 19], count = 0;

        start(1024 * tree - 100, tree);
        GET(2, 3, RB_DONE, 128, 1);
        GET_AT(n - 1, 0, RB_DONE, n - 1, 1);
        whole = memory;
        for (size_t order = 0; (size_t)1 << order <= 512 * tree; order++) {
            const size_t start_rows[] = {0, n / 128, (n - 1) / 64};
            for (size_t i = 0; i < LENGTH(start_rows); i++) {
                ASK(RB_DONE, rb_why_get(LENT, start_rows[i], order, &reason, &frame));
                uint32_t code = rb_get(LENT, start_rows[i], order, &frame, &probes);
                CHECK(code == (reason == RB_WHY_DONE ? RB_DONE : RB_MEMORY));
                if (code == RB_DONE)
                    frames[count] = frame, orders[count++] = order;
            }
        }
        AUDIT(RB_DONE, 0, RB_SOUND);
        CHECK(count > 9 && memcmp(&memory, &whole, sizeof memory) != 0);
        for (size_t i = 0; i < count; i++) {
            WHY_PUT(frames[i], orders[i], RB_DONE, RB_WHY_DONE, 0);
            PUT(frames[i], orders[i], RB_DONE);
            WHY_PUT(frames[i], orders[i], RB_DONE, RB_WHY_FREE, frames[i]);
        }
        CHECK(memcmp(&memory, &whole, sizeof memory) == 0);
    }
}

/* Three trees, of which the last has a whole huge frame, one of 392 frames, and two that are absent. */
static void queries(void)
{
    start(5000, 4);
    IS_FREE(0, 11, RB_DONE, 1);
    GET_AT(7, 0, RB_DONE, 7, 1);
    CHECK(rows[0] == 0x80 && entries[0] == 511);
    IS_FREE(7, 0, RB_DONE, 0);
    IS_FREE(6, 1, RB_DONE, 0);
    IS_FREE(4, 1, RB_DONE, 1);
    IS_FREE(0, 9, RB_DONE, 0);
    IS_FREE(512, 9, RB_DONE, 1);
    IS_FREE(0, 10, RB_DONE, 0);
    IS_FREE(1024, 10, RB_DONE, 1);
    IS_FREE(0, 11, RB_DONE, 0);
    IS_FREE(4608, 8, RB_DONE, 1);
    STATS(RB_DONE, 4999, 8, 1);
    STATS_AT(7, 0, RB_DONE, 0, 0, 0);
    STATS_AT(8, 0, RB_DONE, 1, 0, 0);
    STATS_AT(7, 9, RB_DONE, 511, 0, 0);
    STATS_AT(512, 9, RB_DONE, 512, 1, 0);
    STATS_AT(0, 11, RB_DONE, 2047, 3, 0);
    STATS_AT(2048, 11, RB_DONE, 2048, 4, 1);
    STATS_AT(4999, 11, RB_DONE, 904, 1, 0);
    STATS_AT(8, 5, RB_DONE, 0, 0, 0);
    STATS_AT(8, SIZE_MAX, RB_DONE, 0, 0, 0);
    GET(8, 9, RB_DONE, 512, 1);
    CHECK(rows_are(8, 16, 0) && entries[1] == RB_MARK);
    STATS_AT(512, 9, RB_DONE, 0, 0, 0);
    STATS_AT(0, 11, RB_DONE, 1535, 2, 0);
    rows[16] = 1;
    IS_FREE(1024, 0, RB_DONE, 1);
    GET_AT(1024, 0, RB_MEMORY, 0, 1);

    start(1024, 1);
    STATS_AT(0, 9, RB_DONE, 512, 1, 0);
}

/* The five faults, in a tree with a whole huge frame, one of 488 frames, and two that are absent. */
static void faults(void)
{
    start(1000, 4);
    RECOVER(RB_DONE, 0, 0);
    CHECK(unchanged());
    entries[1] = RB_MARK;
    AUDIT(RB_DONE, 1, RB_PARTIAL_MARK);
    RECOVER(RB_DAMAGE, 0, 0);

    start(1000, 4);
    entries[0] = RB_MARK, rows[3] = 1;
    AUDIT(RB_DONE, 0, RB_MARKED_BIT);
    RECOVER(RB_DONE, 0, 1);
    CHECK(entries[0] == RB_MARK && rows_are(0, 8, 0));
    AUDIT(RB_DONE, 0, RB_SOUND);

    start(1000, 4);
    rows[15] &= ONES >> 1;
    AUDIT(RB_DONE, 1, RB_BIT_PAST_END);
    RECOVER(RB_DAMAGE, 0, 0);

    start(1000, 4);
    entries[0] = 511, rows[8] = 1;
    AUDIT(RB_DONE, 0, RB_WRONG_COUNT);
    RECOVER(RB_DONE, 2, 0);
    CHECK(entries[0] == 512 && rows[0] == 0 && entries[1] == 487 && rows[8] == 1);
    AUDIT(RB_DONE, 0, RB_SOUND);

    start(1000, 4);
    entries[3] = 1;
    AUDIT(RB_DONE, 3, RB_ABSENT_ENTRY);
    RECOVER(RB_DAMAGE, 0, 0);
}

static void trees(void)
{
    static const size_t whole[19] = {2048, 1024, 512, 256, 128, 64, 32, 16, 8, 4, 2, 1};
    static const size_t less_a_frame[19] = {2047, 1023, 511, 255, 127, 63, 31, 15, 7, 3, 1, 0};
    size_t sum = 0, all[19];

    start(5000, 4);
    GET(0, 0, RB_DONE, 0, 1);
    ROOM(2047, RB_DONE, less_a_frame);
    ROOM(2048, RB_DONE, whole);
    TREE_RUN(0, RB_DONE, 0, 4);
    TREE_RUN(2047, RB_DONE, 0, 4);
    TREE_RUN(2048, RB_DONE, 4, 4);
    TREE_RUN(4999, RB_DONE, 8, 4);
    for (size_t x = offset; x < offset + length; x++)
        sum += entries[x];
    CHECK(sum == 5000 - 4096);

    start(RB_MAX_FRAMES, 512);
    for (size_t order = 0; order < LENGTH(all); order++)
        all[order] = (size_t)1 << (18 - order);
    ROOM(RB_MAX_FRAMES - 1, RB_DONE, all);
    TREE_RUN(RB_MAX_FRAMES - 1, RB_DONE, 1536, 512);
    GET(RB_MAX_FRAMES / 64 - 1, 18, RB_DONE, 1536 * 512, 1);
    ROOM(RB_MAX_FRAMES - 1, RB_DONE, no_room);
}

/* Gives single frames back. */
static void put_frames(size_t from, size_t to)
{
    for (size_t at = from; at < to; at++)
        PUT(at, 0, RB_DONE);
}

/* Why a get or a put would be refused with 7: each reason, in the first of two trees of two huge frames, of which the
 * second tree has one of 40 frames and one that is absent. */
static void reasons(void)
{
    start(1064, 2);
    RESERVE_ALL(RB_DONE);
    put_frames(1024, 1064);
    WHY_GET(0, 0, RB_DONE, RB_WHY_TOO_FEW);
    put_frames(0, 37);
    WHY_GET(3, 6, RB_DONE, RB_WHY_TOO_FEW);
    WHY_GET(3, 10, RB_DONE, RB_WHY_TOO_FEW);
    put_frames(512, 549);
    WHY_GET(3, 6, RB_DONE, RB_WHY_SPREAD);
    WHY_GET(15, 6, RB_DONE, RB_WHY_SPREAD);
    WHY_GET(3, 5, RB_DONE, RB_WHY_DONE);
    put_frames(640, 667);
    WHY_GET(3, 6, RB_DONE, RB_WHY_NO_BLOCK);
    GET(3, 6, RB_MEMORY, 0, 2);
    put_frames(549, 576);
    WHY_GET(3, 6, RB_DONE, RB_WHY_DONE);
    WHY_GET(16, 5, RB_DONE, RB_WHY_DONE);
    WHY_GET(16, 6, RB_DONE, RB_WHY_TOO_FEW);

    WHY_GET_AT(512, 6, RB_DONE, RB_WHY_DONE, 0);
    WHY_GET_AT(512, 7, RB_DONE, RB_WHY_HELD, 576);
    WHY_GET_AT(0, 10, RB_DONE, RB_WHY_HELD, 37);
    GET_AT(0, 10, RB_MEMORY, 0, 1);
    WHY_PUT(576, 6, RB_DONE, RB_WHY_DONE, 0);
    WHY_PUT(640, 6, RB_DONE, RB_WHY_FREE, 640);
    WHY_PUT(32, 5, RB_DONE, RB_WHY_FREE, 32);
    WHY_PUT(0, 10, RB_DONE, RB_WHY_FREE, 0);
    WHY_PUT(1024, 5, RB_DONE, RB_WHY_FREE, 1024);

    /* Huge frame 0 is held whole, 1 frame by frame. */
    start(1064, 2);
    GET(0, 9, RB_DONE, 0, 1);
    GET(8, 8, RB_DONE, 512, 1);
    WHY_PUT(0, 10, RB_DONE, RB_WHY_FREE, 768);
    WHY_GET(0, 9, RB_DONE, RB_WHY_TOO_FEW);
    GET(8, 8, RB_DONE, 768, 1);
    WHY_PUT(0, 10, RB_DONE, RB_WHY_HELD_SINGLY, 512);
    WHY_PUT(512, 9, RB_DONE, RB_WHY_HELD_SINGLY, 512);
    PUT(512, 9, RB_MEMORY);
    WHY_PUT(0, 9, RB_DONE, RB_WHY_DONE, 0);
    WHY_PUT(512, 8, RB_DONE, RB_WHY_DONE, 0);
    WHY_GET_AT(100, 2, RB_DONE, RB_WHY_HELD, 100);
    WHY_GET(0, 0, RB_DONE, RB_WHY_TOO_FEW);
    PUT(0, 8, RB_DONE);
    GET(0, 8, RB_DONE, 0, 1);
    WHY_PUT(0, 10, RB_DONE, RB_WHY_HELD_SINGLY, 0);

    /* The reason 2 is for orders below 9 alone, and at T = 1 a tree is a huge frame. */
    start(1024, 2);
    GET(0, 0, RB_DONE, 0, 1);
    GET(8, 0, RB_DONE, 512, 1);
    WHY_GET(0, 9, RB_DONE, RB_WHY_NO_BLOCK);
    WHY_GET(0, 8, RB_DONE, RB_WHY_DONE);
    start(1024, 1);
    GET(0, 0, RB_DONE, 0, 1);
    WHY_GET(0, 9, RB_DONE, RB_WHY_TOO_FEW);
    WHY_GET(8, 9, RB_DONE, RB_WHY_DONE);
}

/* The questions of the first tree have one code, and those of the second another. */
static void asked(uint32_t first, uint32_t second)
{
    for (size_t at = 0; at < n; at += 1024) {
        uint32_t code = at == 0 ? first : second;

        ASK(code, rb_why_get(LENT, at / 64, 0, &reason, &frame));
        CHECK(reason == 0 && frame == 0);
        ASK(code, rb_why_get_at(LENT, at + 2, 1, &reason, &frame));
        CHECK(reason == 0 && frame == 0);
        ASK(code, rb_why_put(LENT, at, 1, &reason, &frame));
        CHECK(reason == (code == RB_DONE ? RB_WHY_FREE : 0) && frame == (code == RB_DONE ? at : 0));
    }
}

/* They are refused with 8 by damage in their own tree alone. */
static void damaged_tree(void)
{
    start(1064, 2);
    asked(RB_DONE, RB_DONE);
    entries[1] = 511;
    asked(RB_DAMAGE, RB_DONE);
    WHY_GET(0, 11, RB_BAD_ORDER, 0);
    WHY_GET(17, 0, RB_BAD_RANGE, 0);
    WHY_GET_AT(1, 1, RB_BAD_ALIGNMENT, 0, 0);
    WHY_PUT(1, 1, RB_BAD_ALIGNMENT, 0, 0);
    entries[1] = 512, rows[7] = 1;
    asked(RB_DAMAGE, RB_DONE);
    rows[7] = 0, entries[1] = RB_MARK, rows[8] = 1;
    asked(RB_DAMAGE, RB_DONE);
    rows[8] = 0;
    asked(RB_DONE, RB_DONE);
    entries[3] = 1;
    asked(RB_DONE, RB_DAMAGE);
    entries[3] = 0, entries[2] = RB_MARK;
    asked(RB_DONE, RB_DAMAGE);
    entries[2] = 40 + 64, rows[23] = 0;
    asked(RB_DONE, RB_DAMAGE);
    entries[2] = 40, rows[23] = ONES;
    asked(RB_DONE, RB_DONE);
}

/* The calls on a block of a bitfield are refused. */
static void bitfield_refused(size_t lent, size_t at, size_t order, uint32_t code)
{
    TOGGLE(lent, at, order, 0, code);
    IS_ZERO(lent, at, order, code, 0);
}

/* .. and its searches. */
static void search_refused(size_t lent, size_t order, uint32_t code)
{
    FIRST_ZEROS(lent, 3, order, code, 0);
    SET_FIRST_ZEROS(lent, 3, order, code, 0);
}

/* The calls on one bitfield, which are lent the rows of N = 512. */
static void bitfield(void)
{
    static const size_t bad_lengths[] = {0, 7, 9, 16};

    lend(512, 1, 0);
    for (size_t i = 0; i < LENGTH(bad_lengths); i++) {
        SET(bad_lengths[i], 20, 10, 1, RB_BAD_LENT);
        FILL(bad_lengths[i], 0, RB_BAD_LENT);
        COUNT_ZEROS(bad_lengths[i], RB_BAD_LENT, 0);
        bitfield_refused(bad_lengths[i], 513, 10, RB_BAD_LENT);
        search_refused(bad_lengths[i], 10, RB_BAD_LENT);
    }
    bitfield_refused(8, 513, 10, RB_BAD_ORDER);
    bitfield_refused(8, 504, 4, RB_BAD_RANGE);
    bitfield_refused(8, SIZE_MAX, 0, RB_BAD_RANGE);
    bitfield_refused(8, 8, 4, RB_BAD_ALIGNMENT);
    search_refused(8, 10, RB_BAD_ORDER);
    ROW_SEARCH(0, 7, RB_BAD_ORDER, 0, 0);
    ROW_SEARCH(0, SIZE_MAX, RB_BAD_ORDER, 0, 0);
    SET(8, 20, 10, 1, RB_BAD_RANGE);
    SET(8, 0, 513, 1, RB_BAD_RANGE);

    FILL(8, 0, RB_DONE);
    CHECK(rows_are(0, 8, 0));
    SET(8, 10, 20, 7, RB_DONE);
    SET(8, 60, 130, 1, RB_DONE);
    CHECK(rows[0] == 0xf0000000000ffc00 && rows[1] == ONES && rows[2] == 3 && rows_are(3, 8, 0));
    COUNT_ZEROS(8, RB_DONE, 512 - 80);
    SET(8, 12, 129, 0, RB_DONE);
    CHECK(rows[0] == 0xc00 && rows[1] == 0 && rows[2] == 2 && rows_are(3, 8, 0));
    SET(8, 512, 512, 1, RB_DONE);
    CHECK(unchanged());

    FILL(8, 0, RB_DONE);
    TOGGLE(8, 64, 6, 0, RB_DONE);
    CHECK(rows[0] == 0 && rows[1] == ONES && rows_are(2, 8, 0));
    TOGGLE(8, 64, 6, 0, RB_MEMORY);
    TOGGLE(8, 0, 9, 0, RB_MEMORY);
    TOGGLE(8, 72, 3, 5, RB_DONE);
    CHECK(rows[1] == 0xffffffffffff00ff);
    IS_ZERO(8, 72, 3, RB_DONE, 1);
    IS_ZERO(8, 64, 4, RB_DONE, 0);
    IS_ZERO(8, 256, 8, RB_DONE, 1);

    FILL(8, 0, RB_DONE);
    rows[0] = 1;
    FIRST_ZEROS(8, 3, 0, RB_DONE, 192);
    FIRST_ZEROS(8, 11, 0, RB_DONE, 192);
    FIRST_ZEROS(8, SIZE_MAX, 6, RB_DONE, 448);
    FIRST_ZEROS(8, 3, 7, RB_DONE, 128);
    FIRST_ZEROS(8, 13, 7, RB_DONE, 256);
    FIRST_ZEROS(8, 3, 8, RB_DONE, 256);
    FIRST_ZEROS(8, SIZE_MAX, 8, RB_DONE, 256);
    search_refused(8, 9, RB_MEMORY);
    rows[7] = ONES;
    FIRST_ZEROS(8, 7, 0, RB_DONE, 1);
    SET_FIRST_ZEROS(8, 3, 3, RB_DONE, 192);
    CHECK(rows[0] == 1 && rows_are(1, 3, 0) && rows[3] == 0xff && rows_are(4, 7, 0));
    SET_FIRST_ZEROS(8, 3, 7, RB_DONE, 256);
    CHECK(rows[3] == 0xff && rows_are(4, 6, ONES) && rows[6] == 0);
    rows[3] = 0;
    FIRST_ZEROS(8, 6, 7, RB_DONE, 128);
    FILL(8, 2, RB_DONE);
    CHECK(rows_are(0, 8, ONES));
    search_refused(8, 0, RB_MEMORY);
}

/* Every range of frames between two boundaries is covered by blocks, each the largest that can be, and can be given
 * back by them. */
static void ranges(void)
{
    static const size_t ends[] = {0, 1, 2, 3, 63, 64, 65, 511, 512, 513, 1023, 1024, 1025, 2047, 2048, 2049, 2499, 2500};
    const size_t top = RB_TOP_ORDER(2);

    for (size_t i = 0; i < LENGTH(ends); i++)
        for (size_t j = i; j < LENGTH(ends); j++) {
            size_t at = ends[i];

            CHECK(rb_state_reserve_all(&zone) == RB_DONE);
            while (at < ends[j]) {
                size_t order = rb_block_order(at, ends[j], top), block = (size_t)1 << order;

                CHECK(order <= top && at % block == 0 && at + block <= ends[j]);
                CHECK(order == top || at % (2 * block) != 0 || at + 2 * block > ends[j]);
                CHECK(rb_state_put(&zone, at, order) == RB_DONE);
                at += block;
            }
            CHECK(rb_state_audit(&zone, &huge, &reason) == RB_DONE && reason == RB_SOUND);
            for (at = 0; at < 2500; at++)
                CHECK(rb_state_is_free(&zone, at, 0, &yes) == RB_DONE && yes == (at >= ends[i] && at < ends[j]));
        }
}

/* Top orders, and codes and reasons in words that tell them apart. */
static void numbers_and_words(void)
{
    static const char orders[RB_TOP_ORDER(512) + 1];

    CHECK(LENGTH(orders) == RB_ORDERS);
    for (size_t tree = 1, top = RB_HUGE_ORDER; tree <= 512; tree *= 2, top++)
        CHECK((size_t)RB_TOP_ORDER(tree) == top);
    for (uint32_t code = 0; code <= RB_DAMAGE + 1; code++)
        for (uint32_t other = 0; other < code; other++)
            CHECK(strcmp(rb_text(code), rb_text(other)) != 0);
    CHECK(strcmp(rb_text(RB_DONE), "done") == 0 && strcmp(rb_text(UINT32_MAX), rb_text(9)) == 0);
    CHECK(strcmp(rb_text(RB_MEMORY), "get: no such block is free; put: not all of it is held, or from order 9 up not "
                                     "held whole") == 0);
    for (uint32_t why = 0; why <= RB_WHY_HELD_SINGLY + 1; why++)
        for (uint32_t other = 0; other < why; other++)
            CHECK(strcmp(rb_why_text(why), rb_why_text(other)) != 0);
    CHECK(strcmp(rb_why_text(RB_WHY_DONE), "it would be done") == 0);
    CHECK(strcmp(rb_why_text(RB_WHY_HELD), "a frame of the block is held") == 0);
    CHECK(strcmp(rb_why_text(UINT32_MAX), "not a reason") == 0);
}

int main(void)
{
    example();
    lines_to_check();
    bad_arguments();
    near_the_start();
    sizes();
    no_block();
    borrow_and_return();
    queries();
    faults();
    trees();
    reasons();
    damaged_tree();
    bitfield();
    each_call_once();
    ranges();
    numbers_and_words();
    return 0;
}
