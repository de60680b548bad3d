/* Where the bootloader lies: in RAM from 2 MiB on, with the note that QEMU looks for. */
ENTRY(start)
PHDRS {
    code PT_LOAD FLAGS(5);
    data PT_LOAD FLAGS(6);
    note PT_NOTE FLAGS(4);
}
SECTIONS {
    . = 0x200000;
    .note : { KEEP(*(.note.pvh)) } :code :note
    .text : { *(.text*) *(.rodata*) } :code
    . = ALIGN(4096);
    .data : { *(.data*) } :data
    .bss : { *(.bss*) *(COMMON) } :data
    /DISCARD/ : { *(.eh_frame*) *(.comment) *(.note.GNU*) *(.note.gnu*) }
}
