/* QEMU's mps2-an385 and mps2-an386: 4 MiB for code at 0, 4 MiB of RAM. */
MEMORY {
    code (rx) : ORIGIN = 0, LENGTH = 4M
    ram (rwx) : ORIGIN = 0x20000000, LENGTH = 4M
}
ENTRY(reset)
SECTIONS {
    .text : { KEEP(*(.vectors)) *(.text*) *(.rodata*) . = ALIGN(4); } > code
    .data : { data_start = .; *(.data*) . = ALIGN(4); data_end = .; } > ram AT > code
    data_from = LOADADDR(.data);
    .bss : { bss_start = .; *(.bss*) *(COMMON) . = ALIGN(8); bss_end = .; } > ram
    stack_top = ORIGIN(ram) + LENGTH(ram);
    /DISCARD/ : { *(.ARM.exidx*) *(.ARM.attributes) *(.comment) }
}
