/*
 * Jumps into an image in place, in the flash. Its first byte is its entry. It gets a function that
 * writes a text.
 */
#include "jump.h"

#include "serial.h"

typedef void image_program(void (*write_text)(const char *text));

void jump_to(const uint8_t *body, size_t length) {
    (void)length;
    image_program *program = (image_program *)(uintptr_t)body;
    program(serial_write_text);
}
