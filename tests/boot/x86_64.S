# From QEMU's entry in 32 bits to the kernel in 64, and the ways in: traps and the timer's interrupt.

        .section .note.pvh, "a", @note
        .long 4, 8, 18
        .asciz "Xen"
        .quad start

        .text
        .code32
        .globl start
start:  cli
        cld
        movl $stack, %esp
        movl $directories + 3, tables           # memory below 1 GiB is where it is, in pages of 2 MiB
        movl $pages + 3, directories
        movl $pages, %edi
        movl $0x83, %eax
1:      movl %eax, (%edi)
        addl $0x200000, %eax
        addl $8, %edi
        cmpl $pages + 4096, %edi
        jb 1b
        movl $tables, %eax
        movl %eax, %cr3
        movl $0x20, %eax                        # PAE alone: without OSFXSR an SSE instruction is a trap
        movl %eax, %cr4
        movl $0xc0000080, %ecx                  # long mode
        rdmsr
        orl $0x100, %eax
        wrmsr
        movl $0x80000005, %eax                  # paging, protection, and EM: x87 and MMX instructions are a trap
        movl %eax, %cr0
        lgdt segments_end
        ljmp $8, $long

        .code64
long:   xorl %eax, %eax
        movw %ax, %ds
        movw %ax, %es
        movw %ax, %ss
        call kernel

# A trap's number and its error code, or 0, are on the stack, and above them where it was.
        .globl traps
        .balign 16
traps:  .set vector, 0
        .rept 32
        .balign 16
        .if ((0x60227d00 >> vector) & 1) == 0
        pushq $0
        .endif
        pushq $vector
        jmp trapped
        .set vector, vector + 1
        .endr
trapped:
        popq %rdi
        movq 8(%rsp), %rsi
        andq $-16, %rsp
        call fault

        .globl interrupt
interrupt:
        .irp register, rax, rbx, rcx, rdx, rsi, rdi, rbp, r8, r9, r10, r11, r12, r13, r14, r15
        pushq %\register
        .endr
        movq %rsp, %rdi
        movq 120(%rsp), %rsi
        cld
        call tick
        movq %rax, %rsp
        .irp register, r15, r14, r13, r12, r11, r10, r9, r8, rbp, rdi, rsi, rdx, rcx, rbx, rax
        popq %\register
        .endr
        iretq

        .data
segments:
        .quad 0, 0x00af9a000000ffff
segments_end:
        .word 15
        .quad segments

        .bss
        .balign 4096
tables: .skip 4096
directories:
        .skip 4096
pages:  .skip 4096
        .skip 16384
stack:
