/*
 * From the reset of the machine to main(): QEMU enters here in 32-bit protected mode, as the PVH
 * note says (the boot protocol of Xen for direct starts). This sets up 64-bit mode with all of the
 * first 4 GiB at their own addresses, the registers of SSE, and a stack.
 */
#define PRESENT_AND_WRITABLE 0x3
#define LARGE_PAGE 0x80
#define CR4_PAE_AND_SSE 0x620
#define EFER 0xc0000080
#define EFER_LONG_MODE 0x100
#define CR0_EMULATED_FLOATS 0x4
#define CR0_PAGING_AND_COPROCESSOR 0x80000002
#define STACK_SIZE (64 * 1024)
#define CODE 0x8
#define DATA 0x10

        .section .note.pvh, "a", @note
        .align 4
        .long 4, 4, 18                  /* lengths of name and entry; XEN_ELFNOTE_PHYS32_ENTRY */
        .asciz "Xen"
        .long start

        .text
        .code32
        .global start
start:
        cli                             /* stays so: the library uses the red zone of the stack */
        cld
        mov $stack_end, %esp

        /* Four directories of 512 pages of 2 MiB each are the first 4 GiB. */
        movl $directories_of_pages, level_4
        orl $PRESENT_AND_WRITABLE, level_4
        mov $directories, %eax
        or $PRESENT_AND_WRITABLE, %eax
        mov $directories_of_pages, %edi
        mov $4, %ecx
next_directory:
        mov %eax, (%edi)
        add $4096, %eax
        add $8, %edi
        loop next_directory
        mov $(PRESENT_AND_WRITABLE | LARGE_PAGE), %eax
        mov $directories, %edi
        mov $2048, %ecx
next_page:
        mov %eax, (%edi)
        add $0x200000, %eax
        add $8, %edi
        loop next_page

        mov $level_4, %eax
        mov %eax, %cr3
        mov %cr4, %eax
        or $CR4_PAE_AND_SSE, %eax
        mov %eax, %cr4
        mov $EFER, %ecx
        rdmsr
        or $EFER_LONG_MODE, %eax
        wrmsr
        mov %cr0, %eax
        and $~CR0_EMULATED_FLOATS, %eax
        or $CR0_PAGING_AND_COPROCESSOR, %eax
        mov %eax, %cr0
        lgdt segments_pointer
        ljmp $CODE, $start_in_64_bits

        .code64
start_in_64_bits:
        mov $DATA, %ax
        mov %ax, %ds
        mov %ax, %es
        mov %ax, %ss
        mov $stack_end, %rsp
        call main
stop:   hlt
        jmp stop

        .section .rodata
        .align 8
segments:
        .quad 0, 0x00209a0000000000, 0x0000920000000000
segments_pointer:
        .word . - segments - 1
        .long segments

        .bss
        .align 4096
level_4:
        .skip 4096
directories_of_pages:
        .skip 4096
directories:
        .skip 4 * 4096
        .global stack_start, stack_end
stack_start:
        .skip STACK_SIZE
stack_end:

        .section .note.GNU-stack, "", @progbits
