/* QEMU's virt: the serial port PL011, the interrupt controller GICv2, the virtual timer, and PSCI to end the emulator. */

#include "machine.h"

#define SERIAL 0x09000000
#define DISTRIBUTOR 0x08000000
#define INTERFACE 0x08010000
#define TIMER 27

static volatile uint32_t *at(size_t place)
{
    return (volatile uint32_t *)place;
}

void machine_init(void)
{
    *at(DISTRIBUTOR) = 1;
    *at(DISTRIBUTOR + 0x100) = 1u << TIMER;
    *at(INTERFACE + 4) = 0xff;
    *at(INTERFACE) = 1;
}

void machine_go(void)
{
    __asm__ volatile("msr daifclr, #2" : : : "memory");
}

/* The timer counts in 16 ns, and QEMU is told that an instruction takes as long. */
void machine_timer(size_t instructions)
{
    uint32_t interrupt = *at(INTERFACE + 0xc);

    __asm__ volatile("msr cntv_tval_el0, %0\n msr cntv_ctl_el0, %1\n isb" : : "r"(instructions), "r"((size_t)1));
    if (interrupt == TIMER)
        *at(INTERFACE + 0x10) = interrupt;
}

unsigned long machine_lock(void)
{
    unsigned long masks;

    __asm__ volatile("mrs %0, daif\n msr daifset, #2" : "=r"(masks) : : "memory");
    return masks;
}

void machine_unlock(unsigned long masks)
{
    __asm__ volatile("msr daif, %0" : : "r"(masks) : "memory");
}

/* As `interrupt` leaves it: x0 to x30, where, and the state, in which interrupts are on. */
void *machine_thread(void *stack_end, void (*start)(void))
{
    uint64_t *context = (uint64_t *)stack_end - 34;

    context[31] = (uint64_t)start;
    context[32] = 0x345;
    return context;
}

void machine_print(char letter)
{
    while (*at(SERIAL + 0x18) & 0x20)
        ;
    *at(SERIAL) = (uint8_t)letter;
}

void machine_off(void)
{
    register uint64_t call __asm__("x0") = 0x84000008;

    for (;;)
        __asm__ volatile("hvc #0" : "+r"(call));
}
