/* The kernel where QEMU loads it, with the archive's code between two names. */
ENTRY(start)
SECTIONS {
    . = 0x40080000;
    .text : { archive_start = .; *libravelbeam.a:*(.text*) archive_end = .; *(.text*) }
    .rodata : { *(.rodata*) }
    .data : { *(.data*) }
    .bss : { *(.bss*) }
    /DISCARD/ : { *(.comment) *(.eh_frame*) *(.note*) }
}
