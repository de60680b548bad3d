/*
 * Where the bootloader lies: code at 0, as from a microcontroller's own flash; the slots in another
 * part of that memory; stacks and variables in 128 KiB of RAM. The stack comes first: if it is too
 * short, the processor faults, and no variable changes.
 */
MEMORY {
    code (rx) : ORIGIN = 0, LENGTH = 256K
    slots (r) : ORIGIN = 0x00200000, LENGTH = 64K
    ram (rw) : ORIGIN = 0x20000000, LENGTH = 126K
    image (rw) : ORIGIN = 0x2001f800, LENGTH = 2K
}
STACK_SIZE = 24K;
ENTRY(start)
SECTIONS {
    .text : { KEEP(*(.vectors)) *(.text*) *(.rodata*) . = ALIGN(8); } > code
    .stack (NOLOAD) : { stack_start = .; . += STACK_SIZE; stack_end = .; } > ram
    .data : { data_start = .; *(.data*) . = ALIGN(8); data_end = .; } > ram AT > code
    data_in_code = LOADADDR(.data);
    .bss (NOLOAD) : { bss_start = .; *(.bss* COMMON) . = ALIGN(8); bss_end = .; } > ram
    slots_start = ORIGIN(slots);
    /DISCARD/ : { *(.ARM.exidx*) *(.ARM.attributes) *(.comment) }
}
