/* A fuzz target for libFuzzer: bytes are read as N, T, a state and a list of calls. Each call is made through
 * libravelbeam.a, the archive that users link, and held to what the documents promise of every call, and to the Rust
 * wherever the Rust has an answer. Run by oracle/fuzz/run.
 *
 * It has no model of the documents, as the comparison has in oracle/model: its checks are relations between calls and
 * states, such as that a put undoes its get. Only the refusals 1 to 6 are worked out.
 *
 * The archive is machine code, of which libFuzzer sees nothing. So each call, with its code, its order and more, has
 * a counter that libFuzzer takes for coverage. */

#include <stdint.h>
#include <stdlib.h>
#include <string.h>

#include "../lower/calls.h"
#include "rust.h"

enum { MOST = 1048576, ROWS = MOST / 64, ENTRIES = MOST / 512, MARK = 65535, GUARD = 4, WORK = 1 << 16 };
/* The numbers of the calls end before this. */
enum { CALLS = WHY_PUT + 1 };

/* Rows and entries, with some on either side that no call needs. */
struct memory {
    word rows[GUARD + ROWS + 2 * GUARD];
    entry entries[GUARD + ENTRIES + 2 * GUARD];
};

/* The state; as it was before the call; as the run began; and one to try on. */
static struct memory now, before, first, trial;
/* The run's numbers of frames and of huge frames in a tree, and the rows and entries that these need. */
static word n, t, need_rows, need_entries;
/* Whether the state is consistent, by the audit. */
static int clean;

/* What was got and not put back since first: ranges of frames, each once. Kept while borrows holds: the state is
 * consistent, and nothing that was held at first was put back. */
enum { LEDGER = 512 };
static struct range {
    word start, end;
} ledger[LEDGER];
static word held;
static int borrows;

/* One for each call, code, order and a few things more; and one for each tree size, call and code. */
__attribute__((section("__libfuzzer_extra_counters"))) static struct {
    uint8_t orders[CALLS][9][20][8], trees[10][CALLS][9];
} counters;

/* For `oracle/fuzz/run summary`: how often each call had each code, how many calls the Rust answered too, and how many
 * with the rows turned, how many runs gave back what they had borrowed, and for which reasons requests would be turned
 * down. */
static word made[CALLS][9], answered, turned, returned, reasons[CALLS][7];

/* ---- Failing. */

static struct call asked;

static void demand(int holds, const char *what)
{
    if (holds)
        return;
    fprintf(stderr, "fuzz: %s\n  in a run of N %lu, T %lu, ", what, n, t);
    fprintf(stderr, "call %lu: N %lu, T %lu, %lu rows, %lu entries, at %lu, order %lu\n", asked.what, asked.n,
            asked.t, asked.rows_len, asked.entries_len, asked.at, asked.order);
    abort();
}

/* ---- Memory. */

static void copy(struct memory *to, const struct memory *from)
{
    memcpy(to->rows, from->rows, (need_rows + 3 * GUARD) * sizeof(word));
    memcpy(to->entries, from->entries, (need_entries + 3 * GUARD) * sizeof(entry));
}

static int same(const struct memory *one, const struct memory *other)
{
    return !memcmp(one->rows, other->rows, (need_rows + 3 * GUARD) * sizeof(word)) &&
           !memcmp(one->entries, other->entries, (need_entries + 3 * GUARD) * sizeof(entry));
}

static entry entry_of(const struct memory *memory, word frame)
{
    return memory->entries[GUARD + frame / 512];
}

/* Whether each frame of a block is held, or each is not: its bit set or its huge frame marked. */
static int all_held(const struct memory *memory, word frame, word order, int yes)
{
    word mask = order < 6 ? ((1ull << (1ull << order)) - 1) << frame % 64 : ~0ull;

    for (word at = frame; at < frame + (1ull << order); at += 64) {
        word row = entry_of(memory, at) == MARK ? ~0ull : memory->rows[GUARD + at / 64];
        if ((row & mask) != (yes ? mask : 0))
            return 0;
    }
    return 1;
}

/* ---- Document 01's numbers, and its refusals 1 to 6 as they follow from a call's own. */

static word top_order(word huge)
{
    return 9 + (word)__builtin_ctzll(huge);
}

static word rows_of(word frames)
{
    return 8 * ((frames + 511) / 512);
}

static word entries_of(word frames, word huge)
{
    return huge * ((frames + 512 * huge - 1) / (512 * huge));
}

/* The call whose refusals a call has: of one that says why, the request itself. */
static word request_of(word what)
{
    return what == WHY_GET ? GET : what == WHY_GET_AT ? GET_AT : what == WHY_PUT ? PUT : what;
}

static number refusal(const struct call *it)
{
    word what = request_of(it->what);
    int block = what == GET_AT || what == PUT || what == IS_FREE;
    int frame = what == STATS_AT || what == TREE_ROOM || what == TREE_RUN;

    if (it->n == 0 || it->n > MOST)
        return 1;
    if (it->t == 0 || it->t > 512 || (it->t & (it->t - 1)) != 0)
        return 2;
    if (it->rows_len < rows_of(it->n) || it->entries_len < entries_of(it->n, it->t))
        return 3;
    if ((block || what == GET) && it->order > top_order(it->t))
        return 4;
    if ((block && (it->at > it->n || it->at + (1ull << it->order) > it->n)) ||
        (what == GET && it->at >= (it->n + 63) / 64) || (frame && it->at >= it->n))
        return 5;
    return block && it->at % (1ull << it->order) != 0 ? 6 : 0;
}

/* ---- A call and its checks. */

static struct call plain(word what, word at, word order)
{
    return (struct call){ what, n, t, need_rows, need_entries, at, order, now.rows + GUARD, now.entries + GUARD };
}

/* Another call beside the one that is checked, which must be done: its numbers, of which the first is handed back. */
static word ask(word what, word at, word order, size *numbers)
{
    struct call it = plain(what, at, order);
    struct lent lent;
    word count;

    demand(make(&it, &lent, &count) == 0, "a question was refused");
    memcpy(numbers, lent.numbers, sizeof lent.numbers);
    return numbers[0];
}

static int audit(void)
{
    size numbers[NUMBERS];

    ask(AUDIT, 0, 0, numbers);
    return numbers[1] == 0;
}

/* From here on it is borrowed. */
static void begin(void)
{
    copy(&first, &now);
    held = 0;
    borrows = clean;
}

static void hold(word start, word end)
{
    if (start < end)
        ledger[held++] = (struct range){ start, end };
}

/* Takes a block into the ledger, of which no frame may be there. */
static void note_got(word frame, word order)
{
    word end = frame + (1ull << order);

    for (word i = 0; i < held; i++)
        demand(end <= ledger[i].start || ledger[i].end <= frame, "a frame was handed out twice");
    hold(frame, end);
}

/* Takes a block out of the ledger. What was not there was held at first. */
static void note_put(word frame, word order)
{
    word end = frame + (1ull << order), ranges = held, missing = 1ull << order;
    struct range old[LEDGER];

    memcpy(old, ledger, sizeof old);
    held = 0;
    for (word i = 0; i < ranges; i++) {
        word left_end = old[i].end < frame ? old[i].end : frame, right = old[i].start > end ? old[i].start : end;

        missing -= old[i].end - old[i].start;
        missing += left_end > old[i].start ? left_end - old[i].start : 0;
        missing += old[i].end > right ? old[i].end - right : 0;
        hold(old[i].start, left_end);
        hold(right, old[i].end);
    }
    if (missing > 0)
        begin();
}

/* What a get promises of its probes, past the refusals 1 to 6. */
static void check_probes(const struct call *it, number code, word probes)
{
    word most = it->what == GET_AT ? 1 : it->order < 9 ? it->t : it->t >> (it->order - 9);

    demand(probes >= 1 && probes <= most && (code != 7 || probes == most), "probes out of range");
}

/* What a get that was done promises: an aligned block below N, in the start row's tree or at its frame, of frames
 * that were free; put back, it leaves all as before. */
static void check_got(const struct call *it, word frame)
{
    word order = it->order, tree = 512 * it->t, count;
    struct call put = *it;
    struct lent lent;

    demand(frame % (1ull << order) == 0 && frame + (1ull << order) <= it->n, "a get handed out no block below N");
    if (it->what == GET)
        demand(frame / tree == 64 * it->at / tree, "a get handed out a block of another tree");
    else
        demand(frame == it->at, "a get with a frame handed out another");
    if (order < 9) {
        demand(all_held(&before, frame, order, 0), "a get handed out a held frame");
        demand(all_held(&now, frame, order, 1), "a get left its block free");
    } else {
        for (word at = frame; at < frame + (1ull << order); at += 512)
            demand(entry_of(&before, at) == 512 && entry_of(&now, at) == MARK, "a get handed out no free huge frame");
    }
    /* A count above 512, which is damage, is too high for a put. */
    if (entry_of(&before, frame) > 512)
        return;
    copy(&trial, &now);
    put.what = PUT, put.at = frame, put.rows = trial.rows + GUARD, put.entries = trial.entries + GUARD;
    demand(make(&put, &lent, &count) == 0, "what was got can't be put");
    demand(same(&trial, &before), "a put does not undo its get");
}

/* What a put that was done promises: its frames were held, and got again they leave all as before, but for a mark
 * of which only a part was put. */
static void check_put(const struct call *it)
{
    struct call get = *it;
    struct lent lent;
    word count;

    demand(all_held(&before, it->at, it->order, 1), "a put of a frame that was not held");
    copy(&trial, &now);
    get.what = GET_AT, get.rows = trial.rows + GUARD, get.entries = trial.entries + GUARD;
    demand(make(&get, &lent, &count) == 0, "what was put can't be got");
    int part = it->order < 9 && entry_of(&before, it->at) == MARK;
    demand(part || same(&trial, &before), "a get does not undo its put");
}

/* In a consistent state a block is free exactly if stats_at says so of all its parts. */
static void check_is_free(word frame, word order, word yes)
{
    size numbers[NUMBERS];
    word step = order < 9 ? 0 : 9, all = 1;

    for (word at = frame; at < frame + (1ull << order); at += 1ull << step) {
        ask(STATS_AT, at, step, numbers);
        all &= numbers[step / 9];
    }
    demand(yes == all, "is_free and stats_at differ");
    if (order == top_order(t) && t > 1) {
        ask(STATS_AT, frame, order, numbers);
        demand(yes == numbers[2], "is_free and stats_at differ on a tree");
    }
}

/* In a consistent state the statistics are the sums of stats_at over huge frames and trees. */
static void check_stats(const size *stats)
{
    size numbers[NUMBERS];
    word frames = 0, huge = 0, trees = 0;

    for (word at = 0; at < n; at += 512) {
        frames += ask(STATS_AT, at, 9, numbers);
        huge += numbers[1];
    }
    for (word at = 0; at < n; at += 512 * t) {
        ask(STATS_AT, at, top_order(t), numbers);
        trees += t == 1 ? numbers[1] : numbers[2];
    }
    demand(frames == stats[0] && huge == stats[1] && trees == stats[2], "stats are not the sums of stats_at");
}

/* The room at order 0 is the tree's free frames in any state; in a consistent one, the room at order 9 and at the top
 * order are its free huge frames and whether it is free. */
static void check_room(word frame, const size *room)
{
    size numbers[NUMBERS];
    word top = top_order(t);

    for (word order = top + 1; order < NUMBERS; order++)
        demand(room[order] == 0, "room above the top order");
    demand(ask(STATS_AT, frame, top, numbers) == room[0], "room and stats_at differ in free frames");
    if (clean) {
        demand(numbers[1] == room[9], "room and stats_at differ in free huge frames");
        demand((t == 1 ? numbers[1] : numbers[2]) == room[top], "room and stats_at differ in a free tree");
    }
}

/* "Reports entries and bitfields changed, equal to those that differ before and after." */
static void check_recovered(const size *changed)
{
    word entries = 0, bitfields = 0;

    for (word at = GUARD; at < need_entries + 3 * GUARD; at++)
        entries += now.entries[at] != before.entries[at];
    for (word at = GUARD; at < need_rows + 3 * GUARD; at += 8)
        bitfields += memcmp(now.rows + at, before.rows + at, 8 * sizeof(word)) != 0;
    demand(changed[0] == entries && changed[1] == bitfields, "a recover miscounts what it changed");
}

/* The tree of a call's frame or start row. */
static word tree_of(const struct call *it)
{
    return (request_of(it->what) == GET ? 64 * it->at : it->at) / (512 * it->t);
}

/* Whether the tree that a call is about is consistent: with it among trees that are all free, an audit is clean. */
static int tree_clean(const struct call *it)
{
    word rows = rows_of(it->n), entry_at = tree_of(it) * it->t, row_at = 8 * entry_at;
    word rows_here = rows - row_at < 8 * it->t ? rows - row_at : 8 * it->t, count;
    struct call other = *it;
    struct lent lent;

    other.what = FREE_ALL, other.rows = trial.rows + GUARD, other.entries = trial.entries + GUARD;
    other.rows_len = rows, other.entries_len = entries_of(it->n, it->t);
    demand(make(&other, &lent, &count) == 0, "a start was refused");
    memcpy(other.rows + row_at, it->rows + row_at, rows_here * sizeof(word));
    memcpy(other.entries + entry_at, it->entries + entry_at, it->t * sizeof(entry));
    other.what = AUDIT;
    demand(make(&other, &lent, &count) == 0, "an audit was refused");
    return lent.numbers[1] == 0;
}

/* Whether each frame from one up to another is held, or each is not. */
static int all_between(const struct memory *memory, word frame, word end, int yes)
{
    while (frame < end) {
        word order = 0;

        while (frame % (2ull << order) == 0 && frame + (2ull << order) <= end)
            order++;
        if (!all_held(memory, frame, order, yes))
            return 0;
        frame += 1ull << order;
    }
    return 1;
}

/* The reason of a get that is turned down in a consistent tree, by the free counts of its huge frames. */
static word reason_by_counts(const struct call *it)
{
    word sum = 0, most = 0;

    for (word at = tree_of(it) * it->t; at < (tree_of(it) + 1) * it->t; at++) {
        entry count = it->entries[at] == MARK ? 0 : it->entries[at];
        sum += count;
        most = count > most ? count : most;
    }
    return sum >> it->order == 0 ? 1 : it->order < 9 && most >> it->order == 0 ? 2 : 3;
}

/* What the reason for which a get or a put would be turned down promises. That there is one exactly if it is turned
 * down, check sees when the get or put is made. */
static void check_why(const struct call *it, word reason, word frame)
{
    word end = it->at + (1ull << it->order);

    switch (reason) {
    case 0:
        break;
    case 1:
    case 2:
    case 3:
        demand(it->what == WHY_GET && reason == reason_by_counts(it), "another reason to turn a get down");
        break;
    case 4:
    case 5:
        demand(it->what == (reason == 4 ? WHY_GET_AT : WHY_PUT), "a reason of another request");
        demand(frame >= it->at && frame < end, "a frame that is not of the block");
        demand(all_held(&now, frame, 0, reason == 4), "a frame for no reason");
        demand(all_between(&now, it->at, frame, reason == 5), "not the lowest frame");
        return;
    case 6:
        demand(it->what == WHY_PUT && it->order >= 9, "a reason of another request");
        demand(frame >= it->at && frame < end && frame % 512 == 0, "no huge frame of the block");
        demand(all_held(&now, it->at, it->order, 1), "a free frame in a block that is all held");
        demand(entry_of(&now, frame) != MARK, "a huge frame that is held whole");
        for (word at = it->at; at < frame; at += 512)
            demand(entry_of(&now, at) == MARK, "not the lowest huge frame");
        return;
    default:
        demand(0, "no such reason");
    }
    demand(frame == 0, "a frame with a reason that has none");
}

/* What each call that was done promises beside its answer. Most of it is on the run's own N and T. */
static void check_done(const struct call *it, const size *numbers, int own, int was_clean)
{
    switch (it->what) {
    case FREE_ALL:
    case RESERVE_ALL:
        demand(clean || !own, "a start leaves damage");
        break;
    case GET:
    case GET_AT:
        check_got(it, numbers[0]);
        break;
    case PUT:
        check_put(it);
        break;
    case IS_FREE:
        demand(numbers[0] < 2, "neither yes nor no");
        if (own && clean)
            check_is_free(it->at, it->order, numbers[0]);
        break;
    case STATS:
        if (own && clean)
            check_stats(numbers);
        break;
    case AUDIT:
        demand(numbers[1] < 6 && (!own || clean == (numbers[1] == 0)), "an audit of another mind");
        break;
    case RECOVER:
        check_recovered(numbers);
        demand(clean || !own, "a recover leaves damage");
        demand(!own || !was_clean || same(&now, &before), "a recover of what is clean");
        break;
    case TREE_ROOM:
        if (own)
            check_room(it->at, numbers);
        break;
    case TREE_RUN:
        demand(numbers[0] == it->at / (512 * it->t) * it->t && numbers[1] == it->t, "another tree's run");
        break;
    case WHY_GET:
    case WHY_GET_AT:
    case WHY_PUT:
        check_why(it, numbers[0], numbers[1]);
    }
}

/* The row of each huge frame at which a get's search begins above order 6: the first of "the group holding (start row
 * mod 8)" (document 02, W-206). It is 0 where the Rust's begins, which is always at row 0, and for all other calls. */
static word origin(const struct call *it)
{
    return it->what == GET && it->order > 6 && it->order < 9 ? it->at % 8 & ~0ull << (it->order - 6) : 0;
}

/* Turns the rows of each huge frame, so that this one comes first and those before it come last. */
static void turn(word *rows, word count, word first)
{
    word old[8];

    for (word at = 0; first % 8 != 0 && at < count; at += 8) {
        memcpy(old, rows + at, sizeof old);
        for (word row = 0; row < 8; row++)
            rows[at + row] = old[(first + row) % 8];
    }
}

/* Where the Rust has an answer, it is ours: the call passes 1 to 6 and is not refused with 8, "less `recover` with
 * absent entries". A panic is no answer of ours. A get that the Rust begins elsewhere it is asked for with the rows
 * turned, so that it begins where ours does; then the rows and the place are turned back. */
static void check_rust(const struct call *it, number code, const size *numbers, word count)
{
    int absent = (it->n + 511) / 512 % it->t != 0;
    word first = origin(it);
    size theirs[NUMBERS];

    if (it->what == AUDIT || it->what >= TREE_ROOM || (it->what == RECOVER && absent))
        return;
    memcpy(theirs, numbers, sizeof theirs);
    copy(&trial, &before);
    turn(trial.rows + GUARD, rows_of(it->n), first);
    demand(make_rust(it, trial.rows + GUARD, trial.entries + GUARD, theirs) == code, "the Rust answers another code");
    turn(trial.rows + GUARD, rows_of(it->n), 8 - first);
    if (code == 0)
        theirs[0] = theirs[0] / 512 * 512 + (theirs[0] + 64 * first) % 512;
    demand(!memcmp(theirs, numbers, count * sizeof *theirs), "the Rust answers other numbers");
    demand(same(&trial, &now), "the Rust leaves other rows or entries");
    answered += first == 0;
    turned += first != 0;
}

/* Whether all is as before but what a call may write: the needed rows and entries, of one tree for gets and puts. */
static int others_same(const struct call *it)
{
    word rows = 0, rows_end = rows_of(it->n), entries = 0, entries_end = entries_of(it->n, it->t);

    if (it->what == GET || it->what == GET_AT || it->what == PUT) {
        entries = (it->what == GET ? 64 * it->at : it->at) / (512 * it->t) * it->t;
        entries_end = entries + it->t;
        rows = 8 * entries;
        rows_end = 8 * entries_end < rows_end ? 8 * entries_end : rows_end;
    }
    rows_end += GUARD, entries_end += GUARD;
    return !memcmp(now.rows, before.rows, (GUARD + rows) * sizeof(word)) &&
           !memcmp(now.entries, before.entries, (GUARD + entries) * sizeof(entry)) &&
           !memcmp(now.rows + rows_end, before.rows + rows_end, (need_rows + 3 * GUARD - rows_end) * sizeof(word)) &&
           !memcmp(now.entries + entries_end, before.entries + entries_end,
                   (need_entries + 3 * GUARD - entries_end) * sizeof(entry));
}

/* The codes that each call has, as bits. */
static const uint16_t codes[] = {
    [FREE_ALL] = 0x00f, [RESERVE_ALL] = 0x00f, [GET] = 0x1bf,       [GET_AT] = 0x1ff,
    [PUT] = 0x1ff,      [IS_FREE] = 0x07f,     [STATS] = 0x00f,     [STATS_AT] = 0x02f,
    [AUDIT] = 0x00f,    [RECOVER] = 0x10f,     [TREE_ROOM] = 0x02f, [TREE_RUN] = 0x02f,
    [WHY_GET] = 0x13f,  [WHY_GET_AT] = 0x17f,  [WHY_PUT] = 0x17f,
};

/* Makes the call on the state, checks it, and hands back its code; in told, if that is lent, the first of its numbers.
 * Before a get or a put it is asked why that would be turned down. */
static number check_told(struct call it, word *told)
{
    int own = it.n == n && it.t == t, get = it.what == GET || it.what == GET_AT, was_clean = clean;
    int request = get || it.what == PUT, why = it.what >= WHY_GET;
    int writes = it.what <= PUT || it.what == RECOVER;
    struct lent lent;
    const size *numbers = lent.numbers;
    word count, reason = 0;
    number why_code = 0;

    if (request) {
        struct call question = it;

        question.what = it.what - GET + WHY_GET;
        why_code = check_told(question, &reason);
    }
    asked = it;
    copy(&before, &now);
    number code = make(&it, &lent, &count), early = refusal(&it);
    demand(code < 9 && (codes[it.what] >> code & 1), "a code that the call does not have");
    demand(early ? code == early : code == 0 || code > 6, "another refusal than document 01's");
    demand(kept(&lent, count), "a number that was not lent is written");
    demand(code != 8 || !clean || !own, "damage in a clean state");
    for (word i = 0; code != 0 && i < count; i++)
        demand(numbers[i] == 0 || (get && i == 1 && code > 6), "a refusal with a number that is not 0");
    if (code != 0 || !writes)
        demand(same(&now, &before), "a refusal or a question has written");
    else
        demand(others_same(&it), "what is not needed or of another tree is written");
    if (get && early == 0)
        check_probes(&it, code, numbers[1]);
    if (early == 0 && code != 8)
        check_rust(&it, code, numbers, count);
    if (request && why_code != 8) {
        demand(why_code == early, "another refusal than that of the request itself");
        demand(early != 0 || code == (reason == 0 ? 0 : 7), "turned down for no reason, or done in spite of one");
    }
    if (why && early == 0)
        demand((code == 8) == !tree_clean(&it), "8 and damage of the tree differ");

    if (code == 0 && writes)
        clean = audit();
    demand(clean || !was_clean || !own, "a clean state is no longer clean");
    if (code == 0)
        check_done(&it, numbers, own, was_clean);
    if (code == 0 && writes) {
        if (own && borrows && held + 2 < LEDGER && get)
            note_got(numbers[0], it.order);
        else if (own && borrows && held + 2 < LEDGER && it.what == PUT)
            note_put(it.at, it.order);
        else if (!same(&now, &before))
            begin();
    }

    int reasoned = why || it.what == AUDIT;
    word more = count == 0 ? 0 : reasoned ? numbers[!why] : (numbers[0] > 0) + 2 * (get && numbers[1] > 1);
    counters.orders[it.what][code][it.order < 20 ? it.order : 19][more + 4 * (!reasoned && clean)]++;
    counters.trees[__builtin_ctzll(t)][it.what][code]++;
    made[it.what][code]++;
    if (why && code == 0)
        reasons[it.what][numbers[0]]++;
    if (told)
        *told = numbers[0];
    return code;
}

static number check(struct call it)
{
    return check_told(it, 0);
}

/* Gives back all that is in the ledger, in the largest blocks that are accepted: then all is as at first. */
static void give_back(void)
{
    returned += borrows && held > 0;
    while (borrows && held > 0) {
        struct range range = ledger[held - 1];
        word order = top_order(t);

        while (range.start % (1ull << order) != 0 || range.start + (1ull << order) > range.end)
            order--;
        while (check(plain(PUT, range.start, order)) != 0) {
            demand(order > 0, "what was got can't be given back");
            order--;
        }
    }
    demand(!borrows || same(&now, &first), "what was given back leaves a trace");
}

/* ---- The bytes and what they say. Past their end all are 0. */

static const uint8_t *bytes;
static size_t left;

static word byte(void)
{
    return left > 0 ? left--, *bytes++ : 0;
}

static word three(void)
{
    word low = byte(), middle = byte();

    return low | middle << 8 | byte() << 16;
}

/* Numbers that follow from one: splitmix64. */
static word mixed(word seed)
{
    word z = seed * 0x9e3779b97f4a7c15;

    z = (z ^ z >> 30) * 0xbf58476d1ce4e5b9;
    z = (z ^ z >> 27) * 0x94d049bb133111eb;
    return z ^ z >> 31;
}

static word choose_frames(void)
{
    static const word small[] = { 1, 63, 64, 65, 511, 512, 513 };
    word way = byte() % 16, trees = 1 + byte() % 3;

    if (way < 7)
        return small[way];
    if (way < 11)
        return 512 * t * trees + way % 3 - 1;
    if (way == 11)
        return MOST - trees % 2;
    return 1 + three() % (way == 12 ? 300000 : 1024 * trees);
}

/* A consistent state: each huge frame is free, held whole, full or mixed, as a few bytes say in turns. */
static void fill(void)
{
    word kinds[8], many = 1 + byte() % 8;

    for (word i = 0; i < many; i++)
        kinds[i] = byte();
    for (word at = 0; at < need_rows + 3 * GUARD; at++)
        now.rows[at] = mixed(at);
    for (word at = 0; at < need_entries + 3 * GUARD; at++)
        now.entries[at] = at < GUARD || at >= GUARD + need_entries ? (entry)mixed(at) : 0;
    for (word huge = 0; huge < need_rows / 8; huge++) {
        word *rows = now.rows + GUARD + 8 * huge, kind = kinds[huge % many], whole = 512 * huge + 512 <= n, zeros = 0;

        for (word row = 0; row < 8; row++) {
            word any = mixed(kind + 256 * (8 * huge + row));
            word one_of[] = { 0, whole ? 0 : ~0ull, ~0ull, any, any & 1 ? 0 : ~0ull, ~(1ull << any % 64) };
            word frame = 512 * huge + 64 * row;

            rows[row] = one_of[kind % 6] | (n >= frame + 64 ? 0 : n <= frame ? ~0ull : ~0ull << n % 64);
            zeros += 64 - (word)__builtin_popcountll(rows[row]);
        }
        now.entries[GUARD + huge] = kind % 6 == 1 && whole ? MARK : (entry)zeros;
    }
}

/* A huge frame that has an entry, be it absent: any, the last with frames, or the first without. */
static word choose_huge(void)
{
    word at = byte(), last = need_rows / 8 - 1;

    return at < 32 ? last : at < 64 && last + 1 < need_entries ? last + 1 : (at + 256 * (at & 3)) % need_entries;
}

/* Damages the state: an entry, a row, or all of them. */
static void poke(void)
{
    static const entry named[] = { 0, 1, 511, 512, 513, 520, MARK - 1, MARK };
    word huge = choose_huge(), way = byte(), value = byte();
    entry count = way < 192 ? named[way / 8 % 8] : (entry)(value << way % 9);
    word *row = now.rows + GUARD + 8 * (huge < need_rows / 8 ? huge : 0) + value % 8;
    word one_of[] = { 0, ~0ull, *row ^ 1ull << value / 4, mixed(value) }, bits = one_of[way / 8 % 4];

    switch (way % 8) {
    case 0:
        for (word at = 0; at < need_rows; at++)
            now.rows[GUARD + at] = bits;
        for (word at = 0; at < need_entries; at++)
            now.entries[GUARD + at] = count;
        break;
    case 1:
    case 2:
    case 3:
        *row = bits;
        break;
    default:
        now.entries[GUARD + huge] = count;
    }
    clean = audit();
    begin();
}

static word choose_order(void)
{
    static const word high[] = { 19, 20, 31, 32, 63, 64, 65, ~0ull };
    word at = byte();

    return at < 240 ? at % (top_order(t) + 2) : high[at % 8];
}

/* A frame, mostly aligned and below N: any, the last, at the end, of a huge frame, of a tree, or in the ledger; or a
 * number at which an addition wraps. */
static word choose_frame(word way, word order)
{
    word frames = order < 64 ? 1ull << order : 0, down = order < 64 ? ~0ull << order : 0;
    word high[] = { n, n + 1, n - 1, 1ull << 32, 1ull << 63, 0 - frames, ~0ull - 511, ~0ull };

    switch (way % 8) {
    case 0:
        return three() % n & down;
    case 1:
        return (n - 1) & down;
    case 2:
        return n >= frames ? n - frames : 0;
    case 3:
        return 512 * t * (byte() % 4);
    case 4:
        return held > 0 ? ledger[byte() % held].start : 0;
    case 5:
        return high[byte() % 8];
    default:
        return (512 * choose_huge() + 2 * byte()) & down;
    }
}

static struct call choose(word what, word way)
{
    word takes_order = what == GET || what == GET_AT || what == PUT || what == IS_FREE || what == STATS_AT;
    word order = takes_order ? choose_order() : 0;
    word takes_frame = takes_order || what == TREE_ROOM || what == TREE_RUN;
    word frame = takes_frame ? choose_frame(way, order) : 0;

    if (what != GET)
        return plain(what, frame, order);
    /* Rarely a row of which 64 times wraps. */
    return plain(what, frame / 64 + (way == 15 ? byte() << 58 : 0), order);
}

/* The call with one of its numbers such as is refused, or at least odd. */
static struct call odd(struct call it)
{
    word way = byte(), at = byte();
    word frames[] = { 0, 1, n / 2, n - 1, n + 1, MOST, MOST + 1, ~0ull };
    word trees[] = { 0, 3, 513, 1024, ~0ull, 1ull << 63 };

    switch (way % 4) {
    case 0:
        it.n = frames[at % 8];
        break;
    case 1:
        it.t = at < 128 ? 1ull << at % 10 : trees[at % 6];
        break;
    case 2:
        it.rows_len = at % 4 == 0 ? need_rows - 1 : at % 4 == 1 ? 0 : need_rows + at % GUARD;
        break;
    default:
        it.entries_len = at % 4 == 0 ? need_entries - 1 : at % 4 == 1 ? 0 : need_entries + at % GUARD;
    }
    return it;
}

static void summary(void)
{
    static const char *const names[] = { "",        "free_all", "reserve_all", "get",     "get_at",
                                         "put",     "is_free",  "stats",       "stats_at", "audit",
                                         "recover", "room",     "tree_run",    "why_get", "why_get_at",
                                         "why_put" };
    word calls = 0;

    for (word what = 1; what < CALLS; what++) {
        printf("%-11s", names[what]);
        for (word code = 0; code < 9; code++) {
            if (codes[what] >> code & 1)
                printf("  %lu: %lu", code, made[what][code]);
            calls += made[what][code];
        }
        printf("%s", what >= WHY_GET ? "; reasons" : "");
        for (word reason = 0; reason < 7; reason++) {
            if (reasons[what][reason] > 0)
                printf("  %lu: %lu", reason, reasons[what][reason]);
        }
        printf("\n");
    }
    printf("%lu calls, %lu of them answered by the Rust too, and %lu with the rows turned; %lu runs gave back what they "
           "had borrowed\n",
           calls, answered, turned, returned);
}

int LLVMFuzzerInitialize(int *argc, char ***argv)
{
    (void)argc, (void)argv;
    load_rust();
    if (getenv("SUMMARY"))
        atexit(summary);
    return 0;
}

int LLVMFuzzerTestOneInput(const uint8_t *data, size_t length)
{
    bytes = data, left = length;
    t = 1ull << byte() % 10;
    n = choose_frames();
    need_rows = rows_of(n), need_entries = entries_of(n, t);
    fill();
    clean = audit();
    demand(clean, "damage in a state that is consistent");
    begin();
    /* Calls on large states are slow, and fewer. */
    for (word work = 0; left > 0 && work < WORK; work += 64 + need_rows) {
        word kind = byte(), what = kind % 16, got;

        if (what == 0)
            check(odd(choose(1 + kind / 16 % 12, byte() % 16)));
        else if (what <= TREE_RUN)
            check(choose(what, kind / 16));
        else if (what == 13)
            check(choose(GET, kind / 16));
        else if (what == 14 && held > 0)
            got = ledger[byte() % held].start, check(plain(PUT, got, choose_order()));
        else
            poke();
    }
    give_back();
    return 0;
}
