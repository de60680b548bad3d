/*
 * From the reset to main(): the vector table, and a start that copies the initialized variables to
 * RAM and clears the others. The processor itself loads the stack pointer.
 */
        .syntax unified
        .thumb

        .section .vectors, "a"
        .word stack_end
        .word start
        .rept 14
        .word fault
        .endr

        .text
        .global start
        .thumb_func
start:
        ldr r0, =data_in_code
        ldr r1, =data_start
        ldr r2, =data_end
        b copied
copy:   ldr r3, [r0], #4
        str r3, [r1], #4
copied: cmp r1, r2
        blo copy

        ldr r1, =bss_start
        ldr r2, =bss_end
        movs r3, #0
        b cleared
clear:  str r3, [r1], #4
cleared:
        cmp r1, r2
        blo clear
        bl main
stop:   b stop

        /* An exception stops the machine. No interrupt is enabled. */
        .thumb_func
fault:
        ldr r0, =stack_end
        msr msp, r0
        ldr r0, =text
        bl serial_write_text
        b stop
        .ltorg

        .section .rodata
text:   .asciz "fault\n"
