/*
 * Copies an image to RAM, and jumps there: in the flash its sectors don't follow each other. The
 * image is linked for this place. Its first byte is its entry. It gets a function that writes a
 * text.
 */
#include "jump.h"

#include <string.h>

#include "serial.h"

extern uint8_t image_start[], image_end[];

typedef void image_program(void (*write_text)(const char *text));

void jump_to(const uint8_t *body, size_t length) {
    if (length > (size_t)(image_end - image_start)) {
        serial_write_text("image too long\n");
        return;
    }
    memcpy(image_start, body, length);
    __asm__ volatile(".option push\n.option arch, +zifencei\nfence.i\n.option pop" : : : "memory");
    image_program *program = (image_program *)(uintptr_t)image_start;
    program(serial_write_text);
}
