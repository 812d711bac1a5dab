/* Calls that are wrong in one way each, for `oracle/fuzz/run check`: the linker's --wrap puts them before those of
 * the archive, and WRONG says which of them errs. */

#include "../shared/words.h"

enum {
    PUT_FORGETS = 1,
    GET_NEXT,
    MARK_IS_FREE,
    RECOVER_ADDS,
    REFUSAL_WRITES,
    LAST_OF_A_GROUP,
    ROOM_AT_9,
    OTHER_TREE,
    SPREAD_AT_9,
    HIGHEST_HELD,
    WHOLE_STATE,
    SINGLY_FIRST,
    ROW_IGNORED
};

/* What each is before, and what stands before it, are as the header has them. */
#define WRAPPED(call) __typeof__(call) __real_##call, __wrap_##call
WRAPPED(rb_get);
WRAPPED(rb_put);
WRAPPED(rb_is_free);
WRAPPED(rb_recover);
WRAPPED(rb_room);
WRAPPED(rb_why_get);
WRAPPED(rb_why_get_at);
WRAPPED(rb_why_put);

/* The frame after the one that was taken; it writes though its order is too high; where the tree has no block it goes
 * on to the next; or order 7 begins at row 0 of each huge frame. */
number __wrap_rb_get(size n, size t, word *rows, size rows_len, entry *entries, size entries_len, size row, size order,
                     size *frame, size *probes)
{
    if (WRONG == ROW_IGNORED && order == 7 && row < (n + 63) / 64)
        row -= row % 8;
    number code = __real_rb_get(n, t, rows, rows_len, entries, entries_len, row, order, frame, probes);

    if (WRONG == GET_NEXT && code == 0)
        ++*frame;
    if (WRONG == REFUSAL_WRITES && code == 4)
        entries[0] ^= 1;
    if (WRONG == OTHER_TREE && code == 7 && 64 * (row + 8 * t) < n)
        return __real_rb_get(n, t, rows, rows_len, entries, entries_len, row + 8 * t, order, frame, probes);
    return code;
}

/* The count is not raised; or in a group of eight huge frames and more the last stays held. */
number __wrap_rb_put(size n, size t, word *rows, size rows_len, entry *entries, size entries_len, size frame,
                     size order)
{
    number code = __real_rb_put(n, t, rows, rows_len, entries, entries_len, frame, order);

    if (WRONG == PUT_FORGETS && code == 0 && order < 9)
        entries[frame / 512] -= (entry)(1 << order);
    if (WRONG == LAST_OF_A_GROUP && code == 0 && order > 11)
        entries[(frame >> 9) + (1ull << (order - 9)) - 1] = 65535;
    return code;
}

/* "Counting a mark as 65535 free." */
number __wrap_rb_is_free(size n, size t, const word *rows, size rows_len, const entry *entries, size entries_len,
                         size frame, size order, number *yes)
{
    number code = __real_rb_is_free(n, t, rows, rows_len, entries, entries_len, frame, order, yes);

    if (WRONG == MARK_IS_FREE && code == 0 && order < 9 && entries[frame / 512] == 65535)
        *yes = 1;
    return code;
}

/* One bitfield more than differs, where any does. */
number __wrap_rb_recover(size n, size t, word *rows, size rows_len, entry *entries, size entries_len,
                         size *entries_changed, size *bitfields_changed)
{
    number code = __real_rb_recover(n, t, rows, rows_len, entries, entries_len, entries_changed, bitfields_changed);

    if (WRONG == RECOVER_ADDS && *bitfields_changed > 0)
        ++*bitfields_changed;
    return code;
}

/* No free huge frame in a tree of 64 huge frames and more. */
number __wrap_rb_room(size n, size t, const word *rows, size rows_len, const entry *entries, size entries_len,
                      size frame, size *counts)
{
    number code = __real_rb_room(n, t, rows, rows_len, entries, entries_len, frame, counts);

    if (WRONG == ROOM_AT_9 && t > 63)
        counts[9] = 0;
    return code;
}

/* "No single huge frame has that many" is said at order 9 too. */
number __wrap_rb_why_get(size n, size t, const word *rows, size rows_len, const entry *entries, size entries_len,
                         size row, size order, number *reason, size *frame)
{
    number code = __real_rb_why_get(n, t, rows, rows_len, entries, entries_len, row, order, reason, frame);

    if (WRONG == SPREAD_AT_9 && order == 9 && *reason == 3)
        *reason = 2;
    return code;
}

/* The highest held frame of the block. */
number __wrap_rb_why_get_at(size n, size t, const word *rows, size rows_len, const entry *entries, size entries_len,
                            size frame, size order, number *reason, size *at)
{
    number code = __real_rb_why_get_at(n, t, rows, rows_len, entries, entries_len, frame, order, reason, at);

    if (WRONG == HIGHEST_HELD && *reason == 4) {
        *at = frame + ((size)1 << order) - 1;
        while (entries[*at / 512] != 65535 && (rows[*at / 64] >> *at % 64 & 1) == 0)
            --*at;
    }
    return code;
}

/* Damage of another tree is refused too; or that a huge frame is not held whole goes before that a frame is free. */
number __wrap_rb_why_put(size n, size t, const word *rows, size rows_len, const entry *entries, size entries_len,
                         size frame, size order, number *reason, size *at)
{
    number code = __real_rb_why_put(n, t, rows, rows_len, entries, entries_len, frame, order, reason, at), fault = 0;
    size huge;

    if (WRONG == WHOLE_STATE && code == 0) {
        rb_audit(n, t, rows, rows_len, entries, entries_len, &huge, &fault);
        if (fault != 0) {
            *reason = 0, *at = 0;
            return 8;
        }
    }
    if (WRONG == SINGLY_FIRST && *reason == 5 && order > 9) {
        *reason = 6;
        *at = *at / 512 * 512;
    }
    return code;
}
