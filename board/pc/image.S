/*
 * A tiny image: writes which image and version it is, and returns. It uses addresses relative to
 * itself only, so it runs wherever it lies. Its text is given when it is assembled.
 */
        .text
        .global image
image:
        push %rbx                       /* aligns the stack */
        mov %rdi, %rax                  /* the function that writes a text */
        lea text(%rip), %rdi
        call *%rax
        pop %rbx
        ret
text:
        .ascii TEXT
        .byte '\n', 0

        /* Longer than a sector, so a swap moves two. */
        .fill 4200 - (. - image), 1, 0x5a

        .section .note.GNU-stack, "", @progbits
