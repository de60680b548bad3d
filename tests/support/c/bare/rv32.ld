/* QEMU's `virt` with 8 MiB of RAM. */
MEMORY { ram (rwx) : ORIGIN = 0x80000000, LENGTH = 8M }
ENTRY(reset)
SECTIONS {
    .text : { KEEP(*(.vectors)) *(.text*) *(.rodata*) *(.srodata*) . = ALIGN(16); } > ram
    .data : { *(.data*) *(.sdata*) . = ALIGN(16); } > ram
    .bss : { bss_start = .; *(.sbss*) *(.bss*) *(COMMON) . = ALIGN(16); bss_end = .; } > ram
    stack_top = ORIGIN(ram) + LENGTH(ram);
}
