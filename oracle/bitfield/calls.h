/* The calls on one row, and on the rows of one huge frame, as one. */
#pragma once

#include "../shared/lent.h"

/* The numbers go on from those of the lower level's calls, so that a program can have both. */
enum { SEARCH = 16, SET, TOGGLE, IS_ZERO, FIRST_ZEROS, SET_FIRST_ZEROS, FILL, COUNT_ZEROS };

/* Makes a call that is lent these rows: its code, and in count how many numbers it was lent. Its own numbers are the
 * count of its rows; place and order, start row and order, start and end, or of a search the row and the order; and a
 * flag. What it does not take is 0. */
static number make_on_rows(word what, const word *own, word *rows, struct lent *lent, word *count)
{
    word length = own[0], a = own[1], b = own[2];
    number flag = (number)own[3], code;
    size *numbers = lent->numbers;

    lend(lent);
    *count = 1;
    switch (what) {
    case SEARCH:
        *count = 2;
        return rb_first_zeros_aligned(a, b, &numbers[0], &numbers[1]);
    case SET:
        *count = 0;
        return rb_bitfield_set(rows, length, a, b, flag);
    case TOGGLE:
        *count = 0;
        return rb_bitfield_toggle(rows, length, a, b, flag);
    case IS_ZERO:
        code = rb_bitfield_is_zero(rows, length, a, b, &lent->small);
        numbers[0] = lent->small;
        return code;
    case FIRST_ZEROS:
        return rb_bitfield_first_zeros(rows, length, a, b, &numbers[0]);
    case SET_FIRST_ZEROS:
        return rb_bitfield_set_first_zeros(rows, length, a, b, &numbers[0]);
    case FILL:
        *count = 0;
        return rb_bitfield_fill(rows, length, flag);
    default:
        return rb_bitfield_count_zeros(rows, length, &numbers[0]);
    }
}
