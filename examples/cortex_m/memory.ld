/* The memory of both programs. The Makefile makes the script of each: it replaces the word PROGRAM. */
MEMORY {
    loader (rx) : ORIGIN = 0, LENGTH = 80K
    application (rx) : ORIGIN = 0x00200200, LENGTH = 243K /* after a header of 512 bytes */
    slots (r) : ORIGIN = 0x00200000, LENGTH = 512K
    ram (rw) : ORIGIN = 0x20000000, LENGTH = 128K
}
STACK_SIZE = 20K; /* a boot of eight images takes 14K */
ENTRY(start)
SECTIONS {
    .text : { KEEP(*(.vectors)) *(.text*) *(.rodata*) . = ALIGN(8); } > PROGRAM
    .stack (NOLOAD) : { stack_start = .; . += STACK_SIZE; stack_end = .; } > ram
    .data : { data_start = .; *(.data*) . = ALIGN(8); data_end = .; } > ram AT > PROGRAM
    data_in_code = LOADADDR(.data);
    .bss (NOLOAD) : { bss_start = .; *(.bss* COMMON) . = ALIGN(8); bss_end = .; } > ram
    slots_start = ORIGIN(slots);
    /DISCARD/ : { *(.ARM.exidx*) *(.ARM.attributes) *(.comment) }
}
