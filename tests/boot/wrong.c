/* What the boot test must find, each put in by the linker's --wrap: a put that answers done and writes nothing, a get that
 * hands out a block a second time, each one in a thousand calls; and a lock that leaves interrupts on. */

#include "machine.h"
#include "ravelbeam.h"

#define LENT size_t n, size_t t, uint64_t *rows, size_t rows_len, uint16_t *entries, size_t entries_len
#define PASSED n, t, rows, rows_len, entries, entries_len

uint32_t __real_rb_put(LENT, size_t frame, size_t order);
uint32_t __wrap_rb_put(LENT, size_t frame, size_t order);
uint32_t __real_rb_get(LENT, size_t row, size_t order, size_t *frame, size_t *probes);
uint32_t __wrap_rb_get(LENT, size_t row, size_t order, size_t *frame, size_t *probes);
unsigned long __wrap_machine_lock(void);
void __wrap_machine_unlock(unsigned long);

static size_t puts, gets, last;

uint32_t __wrap_rb_put(LENT, size_t frame, size_t order)
{
    return ++puts % 1000 == 0 ? RB_DONE : __real_rb_put(PASSED, frame, order);
}

uint32_t __wrap_rb_get(LENT, size_t row, size_t order, size_t *frame, size_t *probes)
{
    uint32_t code = __real_rb_get(PASSED, row, order, frame, probes);

    if (code == RB_DONE && order == 0) {
        if (++gets % 1000 == 0)
            *frame = last;
        last = *frame;
    }
    return code;
}

unsigned long __wrap_machine_lock(void)
{
    return 0;
}

void __wrap_machine_unlock(unsigned long was)
{
    (void)was;
}
