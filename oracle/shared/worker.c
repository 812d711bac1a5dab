/* Ours, for the comparisons of calls: a program over libravelbeam.a, the archive that users link. It reads calls from
 * its standard input and writes what they answered and changed. The driver, with worker.rs, runs it, and has the other
 * half of this protocol.
 *
 * A batch is a number of words of 64 bits, then those words: items, each a state or a call. All of the batch is read
 * before anything is answered, so that no side waits for the other; the answers go back in the same form. The room
 * stays from batch to batch. */

#include "../bitfield/calls.h"
#include "../lower/calls.h"

/* Of the C library it has these three, and no header. */
long read(int file, void *to, size length);
long write(int file, const void *from, size length);
void *memcpy(void *to, const void *from, size length);

/* The kind of an item that is no call: then come the words of the room, how many of them are rows, and the room. A call
 * is its number, whether what it changes is kept, and its own numbers. */
enum { STATE, CALL_WORDS = 8 };

enum { BATCH = 1 << 20, ROOM = 1 << 15 };
static word request[BATCH], reply[1 + BATCH];

/* The rows, then the entries, and both as they were before the call. One row and one entry come before what
 * is lent, and some after it, which no call may touch. */
static word room[ROOM], before[ROOM];
static word words, row_words;

/* Moves all of the bytes over the pipe from the driver, or to it. */
static int transfer(int writing, void *at, size length)
{
    while (length > 0) {
        long done = writing ? write(1, at, length) : read(0, at, length);
        if (done <= 0)
            return 0;
        at = (char *)at + done;
        length -= (size)done;
    }
    return 1;
}

/* One call on the room, written to out: its code, how many numbers it was lent, and these. Hands back where that
 * ends, or 0 where the call wrote beside its numbers. */
static word *call(const word *item, word *out)
{
    const word *own = item + 2;
    word *rows = room + 1;
    entry *entries = (entry *)(room + row_words) + 1;
    struct lent lent;

    if (item[0] <= WHY_PUT) {
        struct call it = { item[0], own[0], own[1], own[2], own[3], own[4], own[5], rows, entries };
        out[0] = make(&it, &lent, &out[1]);
    } else {
        out[0] = make_on_rows(item[0], own, rows, &lent, &out[1]);
    }
    if (!kept(&lent, out[1]))
        return 0;
    memcpy(out + 2, lent.numbers, out[1] * sizeof *out);
    return out + 2 + out[1];
}

/* The places and new words of all that a call changed go to out, which has room for them; then the room is
 * as the call left it, or with keep 0 as before. */
static word changes(word keep, word *out)
{
    word count = 0;

    for (word at = 0; at < words; at++) {
        if (room[at] == before[at])
            continue;
        out[2 * count] = at;
        out[2 * count + 1] = room[at];
        count++;
        if (keep)
            before[at] = room[at];
        else
            room[at] = before[at];
    }
    return count;
}

int main(void)
{
    word count;

    while (transfer(0, &count, sizeof count)) {
        word *in = request, *out = reply + 1;
        if (count > BATCH || !transfer(0, request, count * sizeof *request))
            return 1;
        while (in < request + count) {
            if (in[0] == STATE) {
                words = in[1], row_words = in[2];
                if (words > ROOM)
                    return 1;
                memcpy(room, in + 3, words * sizeof *room);
                memcpy(before, in + 3, words * sizeof *room);
                in += 3 + words;
            } else {
                if (3 + NUMBERS + 2 * words > (word)(reply + 1 + BATCH - out))
                    return 1;
                out = call(in, out);
                if (!out)
                    return 1;
                out[0] = changes(in[1], out + 1);
                in += CALL_WORDS, out += 1 + 2 * out[0];
            }
        }
        reply[0] = (word)(out - reply - 1);
        if (!transfer(1, reply, (size)(out - reply) * sizeof *reply))
            return 1;
    }
    return 0;
}
