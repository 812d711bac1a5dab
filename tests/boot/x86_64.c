/* QEMU's pc: the serial port 16550, the interrupt controller i8259, the timer i8254, and its port to end the emulator. */

#include "machine.h"

static void out(uint16_t port, uint8_t value)
{
    __asm__ volatile("outb %0, %1" : : "a"(value), "Nd"(port));
}

static uint8_t in(uint16_t port)
{
    uint8_t value;

    __asm__ volatile("inb %1, %0" : "=a"(value) : "Nd"(port));
    return value;
}

static struct gate {
    uint16_t low, selector, kind, middle;
    uint32_t high, zero;
} gates[33];
extern const char traps[], interrupt[];

static void set_gate(size_t vector, const char *code)
{
    size_t at = (size_t)code;

    gates[vector] = (struct gate){(uint16_t)at, 8, 0x8e00, (uint16_t)(at >> 16), (uint32_t)(at >> 32), 0};
}

void machine_init(void)
{
    struct {
        uint16_t limit;
        uint64_t base;
    } __attribute__((packed)) table = {sizeof gates - 1, (size_t)gates};

    for (size_t vector = 0; vector < 32; vector++)
        set_gate(vector, traps + 16 * vector);
    set_gate(32, interrupt);
    __asm__ volatile("lidt %0" : : "m"(table));

    /* Both controllers anew: interrupts from vector 32 on, of which the timer's alone is let through. */
    out(0x20, 0x11), out(0x21, 32), out(0x21, 4), out(0x21, 1), out(0x21, 0xfe);
    out(0xa0, 0x11), out(0xa1, 40), out(0xa1, 2), out(0xa1, 1), out(0xa1, 0xff);
}

void machine_go(void)
{
    __asm__ volatile("sti" : : : "memory");
}

/* The timer counts in 838 ns, in which QEMU, told that an instruction takes 16 ns, runs 52 of them. */
void machine_timer(size_t instructions)
{
    size_t count = instructions / 52 + 1;

    out(0x20, 0x20);
    out(0x43, 0x30), out(0x40, (uint8_t)count), out(0x40, (uint8_t)(count >> 8));
}

unsigned long machine_lock(void)
{
    unsigned long flags;

    __asm__ volatile("pushfq\n popq %0\n cli" : "=r"(flags) : : "memory");
    return flags;
}

void machine_unlock(unsigned long flags)
{
    if (flags & 0x200)
        __asm__ volatile("sti" : : : "memory");
}

/* As `interrupt` leaves it: fifteen registers, then where, the code segment, flags, the stack and its segment. */
void *machine_thread(void *stack_end, void (*start)(void))
{
    uint64_t *context = (uint64_t *)stack_end - 24;

    context[15] = (uint64_t)start;
    context[16] = 8;
    context[17] = 0x202;
    context[18] = (uint64_t)stack_end - 8;
    return context;
}

void machine_print(char letter)
{
    while (!(in(0x3fd) & 0x20))
        ;
    out(0x3f8, (uint8_t)letter);
}

void machine_off(void)
{
    for (;;)
        out(0x501, 0);
}
