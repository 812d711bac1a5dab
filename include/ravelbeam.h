/* Ravelbeam: the lower level of a page-frame allocator, for one core, with a proof.
 *
 * It hands out frames of 4 KiB, alone or in aligned blocks, and takes them back. It has no memory of
 * its own: its state is two arrays of the caller's, rows and entries, which each call is lent.
 *
 *   frame        a number below N, the number of frames, which is 1 to 1,048,576
 *   row          64 frames, a uint64_t: frame f is bit f % 64 of row f / 64, and set if it is held
 *   huge frame   512 frames: eight rows and one entry
 *   entry        a uint16_t: how many frames of its huge frame are free, or RB_MARK: it is held whole
 *   tree         T huge frames, T one of 1, 2, 4, .. 512
 *   block        2^order frames, the first a multiple of 2^order: a frame is a block of order 0, a
 *                huge frame one of order 9, a tree one of the top order, 9 + log2 T
 *
 * A state is consistent if each entry is the number of clear bits in its eight rows, or is the mark
 * of a huge frame that lies wholly below N and has all its bits clear; and bits from frame N on are
 * set. If N does not fill the last tree, entries with no huge frame behind them are absent, and 0.
 *
 * What every call keeps to:
 *
 *   - It takes any numbers and any contents of rows and entries, ends, and answers as said here. That
 *     is proved (docs/PROMISES.md), for callers that keep to the last two points.
 *   - It returns RB_DONE or why it is refused. If refused, it has left rows and entries as they were.
 *   - It sets every result it is lent: to 0 if refused, but for the probes of a get with 7 or 8.
 *   - It touches no row and no entry beyond those needed, however many are lent, and only reads those
 *     that are lent as const.
 *   - The caller's pointers are to as much memory as the call says, and none is null. Rows, entries
 *     and results lie apart from each other, and nobody else writes them during the call.
 *   - The caller gives the same N and T to all calls on a state: nothing is kept between calls.
 *
 * The archive to link, libravelbeam.a, is made in the repository: by tools/native for programs on
 * x86-64, by tools/native aarch64 and tools/native riscv64 for those on Linux there, by tools/kernel
 * for kernels on all three. Those for programs may use vector registers and the red zone; those for
 * kernels use neither. None calls anything but memcpy and memset. All are for 64-bit targets. */

#ifndef RAVELBEAM_H
#define RAVELBEAM_H

#include <stddef.h>
#include <stdint.h>

#if SIZE_MAX != UINT64_MAX
#error "ravelbeam.h is for 64-bit targets"
#endif

#define RB_MAX_FRAMES 1048576
#define RB_MARK 65535
#define RB_HUGE_ORDER 9
#define RB_ORDERS 19 /* that a block can have if T is 512: 0 to 18 */

/* The top order, for T one of the ten. */
#define RB_TOP_ORDER(t) \
    (RB_HUGE_ORDER + ((t) > 1) + ((t) > 2) + ((t) > 4) + ((t) > 8) + ((t) > 16) + ((t) > 32) + ((t) > 64) + \
     ((t) > 128) + ((t) > 256))

/* The rows and entries that N frames need, for N and T as above; others may wrap or divide by 0. */
#define RB_ROWS_NEEDED(n) (((n) + 511) / 512 * 8)
#define RB_ENTRIES_NEEDED(n, t) (((n) + 512 * (t) - 1) / (512 * (t)) * (t))

/* What a call returns. The checks are made in this order; each call says which of them it makes. */
#define RB_DONE 0
#define RB_BAD_FRAMES 1    /* N is 0 or above RB_MAX_FRAMES */
#define RB_BAD_TREE 2      /* T is not one of the ten */
#define RB_BAD_LENT 3      /* rows_len or entries_len is less than needed */
#define RB_BAD_ORDER 4     /* the order is above the top order */
#define RB_BAD_RANGE 5     /* the block ends past N; or the frame, or in rb_get row * 64, is not below N */
#define RB_BAD_ALIGNMENT 6 /* the block's first frame is not a multiple of 2^order */
#define RB_MEMORY 7        /* get: no such block is free, or not all of the given one; put: not all of it is
                            * held, or from order 9 up not held whole; rb_why_get and the like say more */
#define RB_DAMAGE 8        /* the call came upon a state that is not consistent */

/* What an audit says of a huge frame. */
#define RB_SOUND 0
#define RB_PARTIAL_MARK 1 /* it has the mark, and does not lie wholly below N */
#define RB_MARKED_BIT 2   /* it has the mark, and a bit of it is set */
#define RB_BIT_PAST_END 3 /* a bit of it is clear, of frame N or a later one */
#define RB_WRONG_COUNT 4  /* its entry is not the number of its clear bits */
#define RB_ABSENT_ENTRY 5 /* it is absent, and its entry is not 0 */

/* Why a get or a put would be refused with 7. */
#define RB_WHY_DONE 0        /* it would not be: it would be done */
#define RB_WHY_TOO_FEW 1     /* get: the tree has fewer than 2^order free frames */
#define RB_WHY_SPREAD 2      /* get: it has enough, but the order is below 9 and no huge frame of it has */
#define RB_WHY_NO_BLOCK 3    /* get: otherwise, no block of the order is free in it */
#define RB_WHY_HELD 4        /* get at a frame: a frame of the block is held */
#define RB_WHY_FREE 5        /* put: a frame of the block is free */
#define RB_WHY_HELD_SINGLY 6 /* put: all are held, but a huge frame of the block is held singly, not whole */

#ifdef __cplusplus
extern "C" {
#endif

/* -- Starts: whatever rows and entries hold, they are a consistent state afterwards --------------- */

/* All frames are free.
 * Refused: 1, 2, 3. Writes all needed rows and entries. */
uint32_t rb_free_all(size_t n, size_t t, uint64_t *rows, size_t rows_len, uint16_t *entries,
                     size_t entries_len);

/* All frames are held: whole huge frames by the mark, the rest by their bits.
 * Refused: 1, 2, 3. Writes all needed rows and entries. */
uint32_t rb_reserve_all(size_t n, size_t t, uint64_t *rows, size_t rows_len, uint16_t *entries,
                        size_t entries_len);

/* -- Get and put: they never touch another tree --------------------------------------------------- */

/* Takes the first free block of an order in the tree of a start row: *frame is its first frame.
 *
 *   orders 0 to 6   the tree's huge frames from the start row's on, wrapping; in each the rows from
 *                   row % 8 on, wrapping; in a row the lowest block
 *   orders 7, 8     the same huge frames; in each the blocks from the one that holds row % 8 on,
 *                   wrapping
 *   from order 9    the tree's blocks from that of the start row on, wrapping
 *
 * *probes is how many huge frames, or from order 9 on blocks, the search came to.
 *
 * Refused: 1 to 4; 5 if row * 64 >= N; 7 if there is none; 8 if the search comes to an absent entry
 * that counts 2^order frames or more, to a count above 512 and no block, or to a block past N.
 * Writes the block's bits and its entry; from order 9 on the mark in its entries, and no row. */
uint32_t rb_get(size_t n, size_t t, uint64_t *rows, size_t rows_len, uint16_t *entries,
                size_t entries_len, size_t row, size_t order, size_t *frame, size_t *probes);

/* Takes the block at a frame, and looks at no other: *taken is that frame, and *probes is 1.
 *
 * Refused: 1 to 6; 7 if its entry counts too few frames or a bit of it is set, from order 9 on if an
 * entry of it is not 512; 8 if a bit of it is set and its entry counts more than 512.
 * Writes what rb_get writes. */
uint32_t rb_get_at(size_t n, size_t t, uint64_t *rows, size_t rows_len, uint16_t *entries,
                   size_t entries_len, size_t frame, size_t order, size_t *taken, size_t *probes);

/* Gives a block back, be it one that was taken or not, if all of it is held, from order 9 on if it is
 * held whole. Below order 9 it may be a part of a huge frame with the mark; then the other frames are
 * held by their bits.
 *
 * Refused: 1 to 6; 7 if a bit of it is clear or its entry counts too many frames, from order 9 on if
 * an entry of it is not the mark; 8 below order 9, if a bit of its huge frame is set under the mark.
 * Writes the block's bits and its entry, under a mark all eight rows; from order 9 on its entries. */
uint32_t rb_put(size_t n, size_t t, uint64_t *rows, size_t rows_len, uint16_t *entries,
                size_t entries_len, size_t frame, size_t order);

/* -- Queries: they write nothing but their results ------------------------------------------------ */

/* *yes is 1 if every frame of a block is free, else 0. From order 9 on that is for its entries to say;
 * below, an entry of 512 or of too few frames is believed, and only else does it look at bits.
 * Refused: 1 to 6. */
uint32_t rb_is_free(size_t n, size_t t, const uint64_t *rows, size_t rows_len,
                    const uint16_t *entries, size_t entries_len, size_t frame, size_t order,
                    uint32_t *yes);

/* How many frames are free, how many huge frames are free whole, and how many trees. It looks at the
 * entries alone.
 * Refused: 1, 2, 3. */
uint32_t rb_stats(size_t n, size_t t, const uint64_t *rows, size_t rows_len,
                  const uint16_t *entries, size_t entries_len, size_t *free_frames,
                  size_t *free_huge, size_t *free_trees);

/* The same of a frame at order 0, of its huge frame at order 9, of its tree at the top order; at any
 * other order all three are 0. At T = 1 order 9 is of the huge frame, and *free_trees is 0. It never
 * looks at another tree.
 * Refused: 1, 2, 3; 5 if frame >= N. */
uint32_t rb_stats_at(size_t n, size_t t, const uint64_t *rows, size_t rows_len,
                     const uint16_t *entries, size_t entries_len, size_t frame, size_t order,
                     size_t *free_frames, size_t *free_huge, size_t *free_trees);

/* -- For staff: all but rb_recover write nothing but their results -------------------------------- */

/* *huge is the first faulty huge frame, be it an absent one, and *reason is what is wrong with it;
 * both are 0 if the state is consistent.
 * Refused: 1, 2, 3. */
uint32_t rb_audit(size_t n, size_t t, const uint64_t *rows, size_t rows_len,
                  const uint16_t *entries, size_t entries_len, size_t *huge, uint32_t *reason);

/* Makes a state consistent: puts its counts right by the bits, and clears the bits under a mark. What
 * was free is free afterwards, and what was held is held. The results are how many entries, and how
 * many huge frames' rows, it changed.
 * Refused: 1, 2, 3; 8 if a huge frame has RB_PARTIAL_MARK, RB_BIT_PAST_END or RB_ABSENT_ENTRY. Never
 * changes an absent entry, a mark, or a row that is not under one. */
uint32_t rb_recover(size_t n, size_t t, uint64_t *rows, size_t rows_len, uint16_t *entries,
                    size_t entries_len, size_t *entries_changed, size_t *bitfields_changed);

/* The room of a frame's tree: how many blocks of each order, 0 to 18, its entries promise. Below order
 * 9 each entry promises its count / 2^order, however its free frames lie; from there to the top order
 * a block counts if its entries are all 512; above it nothing does. It looks at no row.
 * Refused: 1, 2, 3; 5 if frame >= N. */
uint32_t rb_room(size_t n, size_t t, const uint64_t *rows, size_t rows_len,
                 const uint16_t *entries, size_t entries_len, size_t frame, size_t counts[RB_ORDERS]);

/* The entries of a frame's tree: *length of them, which is T, from entries[*offset] on. It looks at no
 * row and no entry.
 * Refused: 1, 2, 3; 5 if frame >= N. */
uint32_t rb_tree_run(size_t n, size_t t, const uint64_t *rows, size_t rows_len,
                     const uint16_t *entries, size_t entries_len, size_t frame, size_t *offset,
                     size_t *length);

/* -- Why: for what reason a get or a put would be refused with 7 ----------------------------------
 *
 * Each is given what the request itself would be, and writes nothing but its results: a reason,
 * RB_WHY_.., and with reasons 4 to 6 a frame, which is 0 with the others. The code is of the question
 * itself, and is RB_DONE for any reason.
 *
 * Refused: 1 to 6 as the request itself; then 8 if the tree that is asked for is not consistent: its own
 * huge frames, the absent ones too. Other trees don't matter. If refused, reason and frame are 0. */

/* Of rb_get: *reason is RB_WHY_TOO_FEW, RB_WHY_SPREAD or RB_WHY_NO_BLOCK, or it would be done. *frame is 0.
 * Refused: 1 to 4; 5 if row * 64 >= N; 8. */
uint32_t rb_why_get(size_t n, size_t t, const uint64_t *rows, size_t rows_len,
                    const uint16_t *entries, size_t entries_len, size_t row, size_t order,
                    uint32_t *reason, size_t *frame);

/* Of rb_get_at: *reason is RB_WHY_HELD, and *at the lowest held frame of the block; or it would be done.
 * Refused: 1 to 6; 8. */
uint32_t rb_why_get_at(size_t n, size_t t, const uint64_t *rows, size_t rows_len,
                       const uint16_t *entries, size_t entries_len, size_t frame, size_t order,
                       uint32_t *reason, size_t *at);

/* Of rb_put: *reason is RB_WHY_FREE, and *at the lowest free frame of the block; or RB_WHY_HELD_SINGLY, and
 * *at the first frame of its lowest huge frame that is held singly; or it would be done.
 * Refused: 1 to 6; 8. */
uint32_t rb_why_put(size_t n, size_t t, const uint64_t *rows, size_t rows_len,
                    const uint16_t *entries, size_t entries_len, size_t frame, size_t order,
                    uint32_t *reason, size_t *at);

/* -- One bitfield: the eight rows of a huge frame, by themselves ----------------------------------
 *
 * A place is a frame's number in it, 0 to 511. Here 3 is a rows_len other than 8, 4 an order above 9,
 * and 5 a block that ends past 512. No entry is touched: a caller that writes a state's own rows so
 * has its entry to put right. */

/* Sets the bits from start on, up to end and without it; clears them if value is 0.
 * Refused: 3; 5 unless start <= end <= 512. */
uint32_t rb_bitfield_set(uint64_t *rows, size_t rows_len, size_t start, size_t end, uint32_t value);

/* Clears the bits of a block if all are set; if expected is 0, sets them if all are clear.
 * Refused: 3 to 6; 7 if they are not. */
uint32_t rb_bitfield_toggle(uint64_t *rows, size_t rows_len, size_t place, size_t order,
                            uint32_t expected);

/* *yes is 1 if all bits of a block are clear, else 0.
 * Refused: 3 to 6. */
uint32_t rb_bitfield_is_zero(const uint64_t *rows, size_t rows_len, size_t place, size_t order,
                             uint32_t *yes);

/* *place is the first clear block of an order: in the rows from start_row % 8 on, wrapping, and in a
 * row the lowest; above order 6 among the blocks from the one that holds that row on, wrapping.
 * Refused: 3, 4; 7 if there is none. */
uint32_t rb_bitfield_first_zeros(const uint64_t *rows, size_t rows_len, size_t start_row,
                                 size_t order, size_t *place);

/* The same, and sets the bits of the block.
 * Refused: 3, 4; 7 if there is none. */
uint32_t rb_bitfield_set_first_zeros(uint64_t *rows, size_t rows_len, size_t start_row,
                                     size_t order, size_t *place);

/* Sets all bits; clears them if value is 0.
 * Refused: 3. */
uint32_t rb_bitfield_fill(uint64_t *rows, size_t rows_len, uint32_t value);

/* *zeros is how many bits are clear.
 * Refused: 3. */
uint32_t rb_bitfield_count_zeros(const uint64_t *rows, size_t rows_len, size_t *zeros);

/* -- One row, by its value ------------------------------------------------------------------------ */

/* *place is the lowest clear block of an order in row v, 0 to 63, and *row is v with its bits set.
 * Refused: 4 above order 6; 7 if there is none. */
uint32_t rb_first_zeros_aligned(uint64_t v, size_t order, size_t *place, uint64_t *row);

/* -- A state as one argument ----------------------------------------------------------------------
 *
 * Inline functions, which are not in the archive: each makes the call above of the same name. If RB_PLAIN
 * is defined, there are none. */

#ifndef RB_PLAIN

/* What every call is given first. */
struct rb_state {
    size_t n, t;
    uint64_t *rows;
    size_t rows_len;
    uint16_t *entries;
    size_t entries_len;
};
#define RB_LENT(state) \
    (state)->n, (state)->t, (state)->rows, (state)->rows_len, (state)->entries, (state)->entries_len

/* Defines a static state, with as much memory as n and t need, all zero. Until it is started nothing of
 * it is free, and its gets and puts are refused with 7. */
#define RB_STATE(name, n, t) \
    static uint64_t name##_rows[RB_ROWS_NEEDED(n)]; \
    static uint16_t name##_entries[RB_ENTRIES_NEEDED(n, t)]; \
    static struct rb_state name = {(n), (t), name##_rows, RB_ROWS_NEEDED(n), name##_entries, \
                                   RB_ENTRIES_NEEDED(n, t)}

static inline uint32_t rb_state_free_all(struct rb_state *state)
{
    return rb_free_all(RB_LENT(state));
}

static inline uint32_t rb_state_reserve_all(struct rb_state *state)
{
    return rb_reserve_all(RB_LENT(state));
}

static inline uint32_t rb_state_get(struct rb_state *state, size_t row, size_t order, size_t *frame,
                                    size_t *probes)
{
    return rb_get(RB_LENT(state), row, order, frame, probes);
}

static inline uint32_t rb_state_get_at(struct rb_state *state, size_t frame, size_t order,
                                       size_t *taken, size_t *probes)
{
    return rb_get_at(RB_LENT(state), frame, order, taken, probes);
}

static inline uint32_t rb_state_put(struct rb_state *state, size_t frame, size_t order)
{
    return rb_put(RB_LENT(state), frame, order);
}

static inline uint32_t rb_state_is_free(const struct rb_state *state, size_t frame, size_t order,
                                        uint32_t *yes)
{
    return rb_is_free(RB_LENT(state), frame, order, yes);
}

static inline uint32_t rb_state_stats(const struct rb_state *state, size_t *free_frames,
                                      size_t *free_huge, size_t *free_trees)
{
    return rb_stats(RB_LENT(state), free_frames, free_huge, free_trees);
}

static inline uint32_t rb_state_stats_at(const struct rb_state *state, size_t frame, size_t order,
                                         size_t *free_frames, size_t *free_huge, size_t *free_trees)
{
    return rb_stats_at(RB_LENT(state), frame, order, free_frames, free_huge, free_trees);
}

static inline uint32_t rb_state_audit(const struct rb_state *state, size_t *huge, uint32_t *reason)
{
    return rb_audit(RB_LENT(state), huge, reason);
}

static inline uint32_t rb_state_recover(struct rb_state *state, size_t *entries_changed,
                                        size_t *bitfields_changed)
{
    return rb_recover(RB_LENT(state), entries_changed, bitfields_changed);
}

static inline uint32_t rb_state_room(const struct rb_state *state, size_t frame,
                                     size_t counts[RB_ORDERS])
{
    return rb_room(RB_LENT(state), frame, counts);
}

static inline uint32_t rb_state_tree_run(const struct rb_state *state, size_t frame, size_t *offset,
                                         size_t *length)
{
    return rb_tree_run(RB_LENT(state), frame, offset, length);
}

static inline uint32_t rb_state_why_get(const struct rb_state *state, size_t row, size_t order,
                                        uint32_t *reason, size_t *frame)
{
    return rb_why_get(RB_LENT(state), row, order, reason, frame);
}

static inline uint32_t rb_state_why_get_at(const struct rb_state *state, size_t frame, size_t order,
                                           uint32_t *reason, size_t *at)
{
    return rb_why_get_at(RB_LENT(state), frame, order, reason, at);
}

static inline uint32_t rb_state_why_put(const struct rb_state *state, size_t frame, size_t order,
                                        uint32_t *reason, size_t *at)
{
    return rb_why_put(RB_LENT(state), frame, order, reason, at);
}

/* The order of the largest block that begins at a frame and ends at or before another frame, at most the
 * top order. By it a range of frames is walked in blocks; docs/KERNEL.md starts memory with holes so. */
static inline size_t rb_block_order(size_t frame, size_t end, size_t top)
{
    size_t order = 0;

    while (order < top && frame % ((size_t)2 << order) == 0 && end - frame >= (size_t)2 << order)
        order++;
    return order;
}

/* What a code says, in words. */
static inline const char *rb_text(uint32_t code)
{
    switch (code) {
    case RB_DONE:
        return "done";
    case RB_BAD_FRAMES:
        return "no frames, or too many";
    case RB_BAD_TREE:
        return "not a tree's number of huge frames";
    case RB_BAD_LENT:
        return "too few rows or entries lent";
    case RB_BAD_ORDER:
        return "order too high";
    case RB_BAD_RANGE:
        return "the block ends past the frames, or the frame or row * 64 is not below their number";
    case RB_BAD_ALIGNMENT:
        return "frame not aligned";
    case RB_MEMORY:
        return "get: no such block is free; put: not all of it is held, or from order 9 up not held whole";
    case RB_DAMAGE:
        return "damaged state";
    default:
        return "not a code";
    }
}

/* What a reason of rb_why_get, rb_why_get_at or rb_why_put says, in words. */
static inline const char *rb_why_text(uint32_t reason)
{
    switch (reason) {
    case RB_WHY_DONE:
        return "it would be done";
    case RB_WHY_TOO_FEW:
        return "the tree has too few free frames";
    case RB_WHY_SPREAD:
        return "the tree has enough free frames, but no huge frame of it has";
    case RB_WHY_NO_BLOCK:
        return "the tree has enough free frames, but no aligned block of them";
    case RB_WHY_HELD:
        return "a frame of the block is held";
    case RB_WHY_FREE:
        return "a frame of the block is free";
    case RB_WHY_HELD_SINGLY:
        return "a huge frame of the block is held singly, not whole";
    default:
        return "not a reason";
    }
}

#endif

#ifdef __cplusplus
}
#endif

#endif
