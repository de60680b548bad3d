/*
 * A tiny image: its reset handler makes a supervisor call, whose handler writes which image and
 * version it is, and returns. So the text shows that the processor uses the image's vector table.
 * The image stops if it doesn't have its own stack. The bootloader has set the serial port up. The
 * text is given when the image is assembled.
 */
#define UART 0x40004000
#define STATE 4
#define STATE_FULL 1
#define STACK_END 0x20020000

        .syntax unified
        .thumb
        .text
        .global image
image:
        .word STACK_END
        .word reset
        .rept 9
        .word stop
        .endr
        .word supervisor_call
        .rept 4
        .word stop
        .endr

        .thumb_func
reset:
        ldr r0, =STACK_END
        mov r1, sp
        cmp r0, r1
        bne stop
        push {r4, lr}
        svc #0
        pop {r4, pc}

        .thumb_func
supervisor_call:
        ldr r0, =text
        ldr r1, =UART
next:   ldrb r2, [r0], #1
        cbz r2, written
wait:   ldr r3, [r1, #STATE]
        tst r3, #STATE_FULL
        bne wait
        str r2, [r1]
        b next
written:
        bx lr

        .thumb_func
stop:   b stop
        .ltorg
text:
        .ascii TEXT
        .byte '\n', 0

        /* Longer than a sector, so a swap moves two. */
        .fill 4200 - (. - image), 1, 0x5a
