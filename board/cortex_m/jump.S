/*
 * Jumps into an image in place, in the flash. Its body begins with its vector table: the first word
 * is its stack pointer, the second one its entry. Each image is linked for its primary slot.
 *
 * The images of this board come back, so the vector table and the stack of the bootloader are
 * restored. On a board of one's own the image doesn't: there, disable the interrupts and timers
 * that the bootloader used, and let the jump be the end.
 */
#define VTOR 0xe000ed08

        .syntax unified
        .thumb
        .text

        /* void jump_to(const uint8_t *body, size_t length): `length` isn't needed. */
        .global jump_to
        .thumb_func
jump_to:
        push {r4, r5, r6, lr}
        mrs r4, msp                     /* an image returns with r4 to r6 as they were */
        ldr r5, =VTOR
        ldr r6, [r5]
        str r0, [r5]
        dsb
        isb
        ldr r1, [r0]
        ldr r2, [r0, #4]
        msr msp, r1
        blx r2
        msr msp, r4
        str r6, [r5]
        dsb
        isb
        pop {r4, r5, r6, pc}
