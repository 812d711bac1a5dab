/* Between the kernel and its machine: MACHINE.S and MACHINE.c on one side, kernel.c on the other. */

#include <stddef.h>
#include <stdint.h>

/* -- What a machine does for the kernel ----------------------------------------------------------- */

/* Traps are caught from here on. */
void machine_init(void);
/* Interrupts are on from here on. */
void machine_go(void);
/* The timer interrupts once, in about so many instructions. */
void machine_timer(size_t instructions);
/* Turns interrupts off, and answers what machine_unlock wants to turn them back to what they were. */
unsigned long machine_lock(void);
void machine_unlock(unsigned long);
/* The context of a thread that is yet to run: it begins at a function, on a stack. */
void *machine_thread(void *stack_end, void (*start)(void));
void machine_print(char);
_Noreturn void machine_off(void);

/* -- What the kernel does for a machine, which calls it ------------------------------------------- */

/* Where the machine begins, on a stack, with all else off. */
_Noreturn void kernel(void);
/* The timer's interrupt: from the context of the thread that it cut, and where, to that which runs next. */
void *tick(void *context, size_t place);
/* A trap: what it is to the machine, and where. */
_Noreturn void fault(size_t what, size_t place);
