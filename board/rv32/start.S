/*
 * From the reset to main(). The machine begins here, at the front of its first flash, which is a
 * ROM. This sets the stack up, copies the initialized variables to RAM, and clears the others.
 */
        .option arch, +zicsr
        .section .start, "ax"
        .global start
start:
        la sp, stack_end
        la t0, trap
        csrw mtvec, t0

        la t0, data_in_rom
        la t1, data_start
        la t2, data_end
copy:   bgeu t1, t2, copied
        lw t3, 0(t0)
        sw t3, 0(t1)
        addi t0, t0, 4
        addi t1, t1, 4
        j copy
copied:
        la t1, bss_start
        la t2, bss_end
clear:  bgeu t1, t2, cleared
        sw zero, 0(t1)
        addi t1, t1, 4
        j clear
cleared:
        call main
stop:   j stop

        /* An exception stops the machine. Interrupts are off. */
        .balign 4
trap:
        la sp, stack_end
        la a0, text
        call serial_write_text
        j stop

        .section .rodata
text:   .asciz "trap\n"
