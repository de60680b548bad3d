/* The registers of the serial port of `virt`, as memory. */
#ifndef PORT_H
#define PORT_H

#include <stdint.h>

#define PORT_BASE 0x10000000u
#define PORT_DIVISOR 2

static inline volatile uint8_t *port_at(int number) {
    return (volatile uint8_t *)(uintptr_t)(PORT_BASE + (uint32_t)number);
}

static inline void port_write(int number, uint8_t value) {
    *port_at(number) = value;
}

static inline uint8_t port_read(int number) {
    return *port_at(number);
}

#endif
