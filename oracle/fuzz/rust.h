/* The Rust's lower level in the builds of oracle/build, one for each tree size. The types are those of export.rs. */

#include <dlfcn.h>
#include <stdio.h>
#include <stdlib.h>

/* Each call copies rows and entries into the Rust's layout and back. */
static struct rust {
    number (*new)(size frames, word *rows, entry *entries, number init);
    number (*get)(size frames, word *rows, entry *entries, size row, size order, const size *frame, size *found);
    number (*put)(size frames, word *rows, entry *entries, size frame, size order);
    number (*is_free)(size frames, word *rows, entry *entries, size frame, size order, number *yes);
    number (*stats)(size frames, word *rows, entry *entries, size *three);
    number (*stats_at)(size frames, word *rows, entry *entries, size frame, size order, size *three);
    number (*recover)(size frames, word *rows, entry *entries);
} rust[10];

/* A function of the library, or the end of the program. */
static void *function(void *library, const char *name)
{
    void *found = library ? dlsym(library, name) : 0;

    if (!found) {
        fprintf(stderr, "fuzz: %s\n", dlerror());
        exit(2);
    }
    return found;
}

static void load_rust(void)
{
    for (int log = 0; log < 10; log++) {
        struct rust *it = &rust[log];
        char path[64];

        snprintf(path, sizeof path, "target/oracle/t%d-4K.so", 1 << log);
        void *library = dlopen(path, RTLD_NOW);
        it->new = function(library, "oracle_new");
        it->get = function(library, "oracle_get");
        it->put = function(library, "oracle_put");
        it->is_free = function(library, "oracle_is_free");
        it->stats = function(library, "oracle_stats");
        it->stats_at = function(library, "oracle_stats_at");
        it->recover = function(library, "oracle_recover");
    }
}

/* Makes a call that passes the refusals 1 to 6, of those that the Rust has, and hands back its code. Numbers that it
 * does not report stay as they are. */
static number make_rust(const struct call *it, word *rows, entry *entries, size *numbers)
{
    const struct rust *by = &rust[__builtin_ctzll(it->t)];
    number yes = 0, code;

    switch (it->what) {
    case FREE_ALL:
        return by->new(it->n, rows, entries, 0);
    case RESERVE_ALL:
        return by->new(it->n, rows, entries, 1);
    case GET:
        return by->get(it->n, rows, entries, it->at, it->order, 0, &numbers[0]);
    case GET_AT:
        return by->get(it->n, rows, entries, 0, it->order, &it->at, &numbers[0]);
    case PUT:
        return by->put(it->n, rows, entries, it->at, it->order);
    case IS_FREE:
        code = by->is_free(it->n, rows, entries, it->at, it->order, &yes);
        numbers[0] = yes;
        return code;
    case STATS:
        return by->stats(it->n, rows, entries, numbers);
    case STATS_AT:
        return by->stats_at(it->n, rows, entries, it->at, it->order, numbers);
    default:
        return by->recover(it->n, rows, entries);
    }
}
