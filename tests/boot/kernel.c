/* A kernel for one core, with no vector or floating-point unit switched on, and two threads between which a timer
 * switches: the painter, who takes huge frames, and the log, which takes single frames and small blocks. Each has a state
 * of its own and calls the archive on it with interrupts on, so that the timer cuts calls in their middle and the other
 * thread calls meanwhile. A third state they share, behind a lock that turns interrupts off.
 *
 * Each frame of a block that is taken must have no owner before, and each of one that is given back its own. All is given
 * back in the end, and then rows and entries must be as at the start. Before all this each call is made once. The line that
 * is printed has the figures. */

#include "machine.h"
#include "ravelbeam.h"

/* Calls that each thread makes at the least. */
#ifndef CALLS
#define CALLS 100000
#endif

/* Eight trees of four huge frames, of which the last has but two whole ones and a part of one. */
#define T 4
#define N (8 * 512 * T - 700)
struct state {
    uint64_t rows[RB_ROWS_NEEDED(N)], first_rows[RB_ROWS_NEEDED(N)];
    uint16_t entries[RB_ENTRIES_NEEDED(N, T)], first_entries[RB_ENTRIES_NEEDED(N, T)];
    uint8_t owners[N];
};
#define LENT(state) N, T, (state)->rows, RB_ROWS_NEEDED(N), (state)->entries, RB_ENTRIES_NEEDED(N, T)

enum { PAINTER, LOG, SHARED };
static struct state states[3];

/* Blocks that a thread holds, and how it is getting on. */
struct block {
    size_t frame, order;
    struct state *state;
};
static struct user {
    struct block held[50];
    size_t count, calls, refused, row;
    uint64_t random;
} users[2];

static volatile size_t ticks, cut, wrong;
static volatile int running, ended[2];
static void *contexts[2];
static _Alignas(16) char log_stack[16384];

/* The archive's code, by the linker's script. */
extern const char archive_start[], archive_end[];

/* -- All that the archive calls -------------------------------------------------------------------
 *
 * They write through volatile, or the compiler would see what they do and make calls of themselves of it. */

void *memcpy(void *to, const void *from, size_t count)
{
    for (size_t i = 0; i < count; i++)
        ((volatile char *)to)[i] = ((const char *)from)[i];
    return to;
}

void *memset(void *to, int value, size_t count)
{
    for (size_t i = 0; i < count; i++)
        ((volatile char *)to)[i] = (char)value;
    return to;
}

/* -- Words and numbers ---------------------------------------------------------------------------- */

static void print(const char *text)
{
    while (*text)
        machine_print(*text++);
}

static void print_number(size_t number, const char *text)
{
    char digits[21];
    int at = 20;

    digits[at] = 0;
    do
        digits[--at] = (char)('0' + number % 10);
    while (number /= 10);
    print(digits + at);
    print(text);
}

static size_t random_below(uint64_t *random, size_t end)
{
    *random = *random * 6364136223846793005 + 1442695040888963407;
    return (*random >> 33) % end;
}

/* -- The threads ---------------------------------------------------------------------------------- */

static void check(int holds)
{
    if (!holds)
        wrong++;
}

#define CHECK(holds) check(holds)
#include "../c/once.h"

/* The frames of a block pass from one owner to another; 0 is nobody. */
static void pass(struct block block, size_t from, size_t to)
{
    size_t end = block.frame + ((size_t)1 << block.order);

    check(end <= N);
    for (size_t frame = block.frame; frame < end && frame < N; frame++) {
        check(block.state->owners[frame] == from);
        block.state->owners[frame] = (uint8_t)to;
    }
}

/* The lock of a state, if it is the shared one. */
static unsigned long lock(struct state *state)
{
    return state == &states[SHARED] ? machine_lock() : 0;
}

static void unlock(struct state *state, unsigned long was)
{
    if (state == &states[SHARED])
        machine_unlock(was);
}

static void get(struct user *user, struct state *state, size_t order)
{
    struct block block = {0, order, state};
    /* In the shared state both look in the first tree, so as to meet often. */
    size_t probes, row = state == &states[SHARED] ? random_below(&user->random, 8 * T) : user->row;
    unsigned long was = lock(state);
    uint32_t code = rb_get(LENT(state), row, order, &block.frame, &probes);

    unlock(state, was);
    user->calls++;
    if (code == RB_DONE) {
        pass(block, 0, (size_t)(user - users) + 1);
        user->held[user->count++] = block;
    } else {
        check(code == RB_MEMORY);
        user->refused++;
        /* On to the next tree. */
        row = (user->row / (8 * T) + 1) * (8 * T);
        user->row = row * 64 < N ? row : 0;
    }
}

/* Gives a block back, or one of order 9 or more now and then in blocks of order 6. */
static void put(struct user *user, size_t which)
{
    struct block block = user->held[which];
    size_t end = block.frame + ((size_t)1 << block.order);

    user->held[which] = user->held[--user->count];
    pass(block, (size_t)(user - users) + 1, 0);
    if (block.order >= 9 && random_below(&user->random, 4) == 0)
        block.order = 6;
    for (; block.frame < end; block.frame += (size_t)1 << block.order) {
        unsigned long was = lock(block.state);
        uint32_t code = rb_put(LENT(block.state), block.frame, block.order);

        unlock(block.state, was);
        user->calls++;
        check(code == RB_DONE);
    }
}

static void work(int me)
{
    struct user *user = &users[me];
    const size_t most = me == PAINTER ? 16 : sizeof user->held / sizeof *user->held;

    user->random = 1 + (uint64_t)me;
    while (user->calls < CALLS) {
        struct state *state = &states[random_below(&user->random, 4) ? me : SHARED];
        size_t chance = random_below(&user->random, 6);

        if (user->count < most && random_below(&user->random, 2))
            get(user, state, me == PAINTER ? 9 + chance % 3 : chance < 3 ? 0 : chance - 2);
        else if (user->count > 0)
            put(user, random_below(&user->random, user->count));
    }
    while (user->count > 0)
        put(user, 0);
    ended[me] = 1;
}

static void work_of_log(void)
{
    work(LOG);
    for (;;)
        ;
}

/* -- What the machine calls ----------------------------------------------------------------------- */

static int in_archive(size_t place)
{
    return place >= (size_t)archive_start && place < (size_t)archive_end;
}

void *tick(void *context, size_t place)
{
    static uint64_t random;

    ticks++;
    if (in_archive(place))
        cut++;
    contexts[running] = context;
    if (!ended[1 - running])
        running = 1 - running;
    machine_timer(50 + random_below(&random, 1000));
    return contexts[running];
}

void fault(size_t what, size_t place)
{
    print("fault ");
    print_number(what, in_archive(place) ? " in the archive\n" : " outside the archive\n");
    machine_off();
}

void kernel(void)
{
    size_t huge, free_frames, free_huge, free_trees;
    uint32_t reason;

    machine_init();
    each_call_once();
    for (struct state *state = states; state < states + 3; state++) {
        check(rb_free_all(LENT(state)) == RB_DONE);
        memcpy(state->first_rows, state->rows, sizeof state->rows);
        memcpy(state->first_entries, state->entries, sizeof state->entries);
    }
    contexts[LOG] = machine_thread(log_stack + sizeof log_stack, work_of_log);
    machine_timer(1000);
    machine_go();
    work(PAINTER);
    while (!ended[LOG])
        ;
    machine_lock();

    for (struct state *state = states; state < states + 3; state++) {
        check(rb_audit(LENT(state), &huge, &reason) == RB_DONE && reason == RB_SOUND);
        check(rb_stats(LENT(state), &free_frames, &free_huge, &free_trees) == RB_DONE && free_frames == N);
        for (size_t i = 0; i < RB_ROWS_NEEDED(N); i++)
            check(state->rows[i] == state->first_rows[i]);
        for (size_t i = 0; i < RB_ENTRIES_NEEDED(N, T); i++)
            check(state->entries[i] == state->first_entries[i]);
        for (size_t i = 0; i < N; i++)
            check(state->owners[i] == 0);
    }
    print_number(users[PAINTER].calls + users[LOG].calls, " calls, ");
    print_number(users[PAINTER].refused + users[LOG].refused, " refused; ");
    print_number(ticks, " ticks, ");
    print_number(cut, " in a call; ");
    print_number(wrong, " wrong\n");
    machine_off();
}
