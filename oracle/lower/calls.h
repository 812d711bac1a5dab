/* The lower level's calls as one, with all that they are lent. */
#pragma once

#include "../shared/lent.h"

enum {
    FREE_ALL = 1,
    RESERVE_ALL,
    GET,
    GET_AT,
    PUT,
    IS_FREE,
    STATS,
    STATS_AT,
    AUDIT,
    RECOVER,
    TREE_ROOM,
    TREE_RUN,
    WHY_GET,
    WHY_GET_AT,
    WHY_PUT
};

/* A call, and the rows and entries it is lent. What it does not take is 0; at is the start row of a get or of why one
 * is turned down, else the frame. */
struct call {
    word what, n, t, rows_len, entries_len, at, order;
    word *rows;
    entry *entries;
};

/* Makes the call: its code, and in count how many numbers it was lent. */
static number make(const struct call *it, struct lent *lent, word *count)
{
    word n = it->n, t = it->t, rows_len = it->rows_len, entries_len = it->entries_len, at = it->at, order = it->order;
    word *rows = it->rows;
    entry *entries = it->entries;
    size *numbers = lent->numbers;
    number code;

    lend(lent);
    *count = 2;
    switch (it->what) {
    case FREE_ALL:
        *count = 0;
        return rb_free_all(n, t, rows, rows_len, entries, entries_len);
    case RESERVE_ALL:
        *count = 0;
        return rb_reserve_all(n, t, rows, rows_len, entries, entries_len);
    case GET:
        return rb_get(n, t, rows, rows_len, entries, entries_len, at, order, &numbers[0], &numbers[1]);
    case GET_AT:
        return rb_get_at(n, t, rows, rows_len, entries, entries_len, at, order, &numbers[0], &numbers[1]);
    case PUT:
        *count = 0;
        return rb_put(n, t, rows, rows_len, entries, entries_len, at, order);
    case IS_FREE:
        *count = 1;
        code = rb_is_free(n, t, rows, rows_len, entries, entries_len, at, order, &lent->small);
        numbers[0] = lent->small;
        return code;
    case STATS:
        *count = 3;
        return rb_stats(n, t, rows, rows_len, entries, entries_len, &numbers[0], &numbers[1], &numbers[2]);
    case STATS_AT:
        *count = 3;
        return rb_stats_at(n, t, rows, rows_len, entries, entries_len, at, order, &numbers[0], &numbers[1],
                           &numbers[2]);
    case AUDIT:
        code = rb_audit(n, t, rows, rows_len, entries, entries_len, &numbers[0], &lent->small);
        numbers[1] = lent->small;
        return code;
    case RECOVER:
        return rb_recover(n, t, rows, rows_len, entries, entries_len, &numbers[0], &numbers[1]);
    case TREE_ROOM:
        *count = NUMBERS;
        return rb_room(n, t, rows, rows_len, entries, entries_len, at, numbers);
    case TREE_RUN:
        return rb_tree_run(n, t, rows, rows_len, entries, entries_len, at, &numbers[0], &numbers[1]);
    case WHY_GET:
        code = rb_why_get(n, t, rows, rows_len, entries, entries_len, at, order, &lent->small, &numbers[1]);
        break;
    case WHY_GET_AT:
        code = rb_why_get_at(n, t, rows, rows_len, entries, entries_len, at, order, &lent->small, &numbers[1]);
        break;
    default:
        code = rb_why_put(n, t, rows, rows_len, entries, entries_len, at, order, &lent->small, &numbers[1]);
    }
    numbers[0] = lent->small;
    return code;
}
