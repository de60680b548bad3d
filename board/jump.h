/* The jump into an image. Each machine has its own. */
#ifndef JUMP_H
#define JUMP_H

#include <stddef.h>
#include <stdint.h>

/*
 * Starts the program whose bytes are the body of an image, at the address where the library reads
 * them. It comes back when the program ends.
 */
void jump_to(const uint8_t *body, size_t length);

#endif
