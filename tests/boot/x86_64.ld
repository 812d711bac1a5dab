/* The kernel where QEMU loads it, with the archive's code between two names. */
ENTRY(start)
PHDRS { all PT_LOAD FLAGS(7); note PT_NOTE FLAGS(4); }
SECTIONS {
    . = 0x100000;
    .note : { KEEP(*(.note.pvh)) } :all :note
    .text : { archive_start = .; *libravelbeam.a:*(.text*) archive_end = .; *(.text*) } :all
    .rodata : { *(.rodata*) }
    .data : { *(.data*) }
    .bss : { *(.bss*) }
    /DISCARD/ : { *(.comment) *(.eh_frame*) *(.note*) }
}
