/* The numbers that a call is lent for its answer, and whether it wrote beside them. */
#pragma once

#include "words.h"

/* The most numbers that a call is lent. */
enum { NUMBERS = 19 };

/* A lent number starts as this, so that one which is not written is seen. */
#define UNWRITTEN 0x5a5a5a5a5a5a5a5aull

/* The numbers that a call is lent, between others that it is not. One of 32 bits goes to the numbers afterwards. */
struct lent {
    size before, numbers[NUMBERS], after;
    number small_before, small, small_after;
};

static void lend(struct lent *lent)
{
    lent->before = lent->after = UNWRITTEN;
    lent->small_before = lent->small = lent->small_after = (number)UNWRITTEN;
    for (word i = 0; i < NUMBERS; i++)
        lent->numbers[i] = UNWRITTEN;
}

/* Whether all that a call of so many numbers was not lent is unwritten. */
static int kept(const struct lent *lent, word count)
{
    int yes = lent->before == UNWRITTEN && lent->after == UNWRITTEN &&
              lent->small_before == (number)UNWRITTEN && lent->small_after == (number)UNWRITTEN;

    for (word i = count; i < NUMBERS; i++)
        yes &= lent->numbers[i] == UNWRITTEN;
    return yes;
}
