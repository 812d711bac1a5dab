// From QEMU's entry to the kernel, with memory that is cached as a kernel has it; and the ways in: traps and the timer's
// interrupt.

        .macro all operation
        \operation x0, x1, [sp, #0]
        \operation x2, x3, [sp, #16]
        \operation x4, x5, [sp, #32]
        \operation x6, x7, [sp, #48]
        \operation x8, x9, [sp, #64]
        \operation x10, x11, [sp, #80]
        \operation x12, x13, [sp, #96]
        \operation x14, x15, [sp, #112]
        \operation x16, x17, [sp, #128]
        \operation x18, x19, [sp, #144]
        \operation x20, x21, [sp, #160]
        \operation x22, x23, [sp, #176]
        \operation x24, x25, [sp, #192]
        \operation x26, x27, [sp, #208]
        \operation x28, x29, [sp, #224]
        .endm

        .text
        .globl start
start:  adr x0, stack
        mov sp, x0
        adr x0, vectors
        msr vbar_el1, x0
        msr cpacr_el1, xzr              // a floating-point or vector instruction is a trap
        mov x0, #0xff00                 // memory of kind 0 is a device's, of kind 1 cached
        msr mair_el1, x0
        ldr x0, =0x00803520             // addresses of 32 bits by tables of 4 KiB, which are cached
        msr tcr_el1, x0
        adr x0, table
        msr ttbr0_el1, x0
        isb
        mrs x0, sctlr_el1
        mov x1, #0x1005                 // with tables, data cache and instruction cache
        orr x0, x0, x1
        msr sctlr_el1, x0
        isb
        bl kernel

        .balign 2048
vectors:
        .rept 5
        .balign 128
        b trapped
        .endr
        .balign 128
        b interrupt
        .rept 10
        .balign 128
        b trapped
        .endr
trapped:
        mrs x0, esr_el1
        lsr x0, x0, #26                 // 7 is an instruction that cpacr_el1 makes a trap
        mrs x1, elr_el1
        bl fault

interrupt:
        sub sp, sp, #272
        all stp
        mrs x1, elr_el1
        mrs x2, spsr_el1
        stp x30, x1, [sp, #240]
        str x2, [sp, #256]
        mov x0, sp
        bl tick
        mov sp, x0
        ldr x2, [sp, #256]
        ldp x30, x1, [sp, #240]
        msr elr_el1, x1
        msr spsr_el1, x2
        all ldp
        add sp, sp, #272
        eret

        .balign 4096
table:  .quad 0x401                     // devices, and then memory, each 1 GiB where it is
        .quad 0x40000705
        .quad 0, 0

        .bss
        .balign 16
        .skip 16384
stack:
