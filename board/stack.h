/* How deep the stack was. */
#ifndef STACK_H
#define STACK_H

#include <stdint.h>

/* Fills the unused part of the stack with a pattern. */
void stack_paint(void);

/* Returns how many bytes of the stack were used since then, and how many it has. */
uint32_t stack_used(void);
uint32_t stack_size(void);

#endif
