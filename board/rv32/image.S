/*
 * A tiny image: writes which image and version it is, and returns. It is linked for the place to
 * which the bootloader copies it. Its text is given when it is assembled.
 */
        .text
        .global image
image:
        mv t0, a0                       /* the function that writes a text, and returns for us */
        la a0, text
        jr t0
text:
        .ascii TEXT
        .byte '\n', 0

        /* Longer than a sector, so a swap moves two. */
        .fill 4200 - (. - image), 1, 0x5a
