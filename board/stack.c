/* Measures the depth of the stack: the bytes that no longer have the pattern were used. */
#include "stack.h"

#include <stdint.h>

/* start.S or the linker script says where the stack lies. It grows down from its end. */
extern uint32_t stack_start[], stack_end[];

#define PATTERN 0x5aa55aa5u

/* How many bytes below its variables a function may use itself. */
#define MARGIN 256

void stack_paint(void) {
    volatile uint32_t here = 0;
    uintptr_t end = (uintptr_t)&here - MARGIN;
    for (volatile uint32_t *at = stack_start; (uintptr_t)at < end; at++) {
        *at = PATTERN;
    }
}

uint32_t stack_used(void) {
    const volatile uint32_t *at = stack_start;
    while (at < stack_end && *at == PATTERN) {
        at++;
    }
    return 4 * (uint32_t)(stack_end - at);
}

uint32_t stack_size(void) {
    return 4 * (uint32_t)(stack_end - stack_start);
}
