/*
 * Where the bootloader lies: code in the first flash, a ROM of 32 MiB; stack and variables in RAM.
 * Images run in other RAM. The stack comes first: if it is too short, no variable changes.
 */
MEMORY {
    rom (rx) : ORIGIN = 0x20000000, LENGTH = 32M
    ram (rw) : ORIGIN = 0x80000000, LENGTH = 256K
    image (rwx) : ORIGIN = 0x80040000, LENGTH = 64K
}
STACK_SIZE = 32K;
ENTRY(start)
SECTIONS {
    .text : { KEEP(*(.start)) *(.text*) *(.rodata* .srodata*) . = ALIGN(16); } > rom
    .stack (NOLOAD) : { stack_start = .; . += STACK_SIZE; stack_end = .; } > ram
    .data : { data_start = .; *(.data* .sdata*) . = ALIGN(16); data_end = .; } > ram AT > rom
    data_in_rom = LOADADDR(.data);
    .bss (NOLOAD) : { bss_start = .; *(.bss* .sbss* COMMON) . = ALIGN(16); bss_end = .; } > ram
    image_start = ORIGIN(image);
    image_end = ORIGIN(image) + LENGTH(image);
    /DISCARD/ : { *(.eh_frame*) *(.comment) *(.riscv.attributes) }
}
