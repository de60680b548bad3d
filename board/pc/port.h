/* The registers of the first serial port of a PC, in its own address space for ports. */
#ifndef PORT_H
#define PORT_H

#include <stdint.h>

#define PORT_BASE 0x3f8
#define PORT_DIVISOR 1

static inline void port_write(int number, uint8_t value) {
    __asm__ volatile("outb %0, %1" : : "a"(value), "Nd"((uint16_t)(PORT_BASE + number)));
}

static inline uint8_t port_read(int number) {
    uint8_t value;
    __asm__ volatile("inb %1, %0" : "=a"(value) : "Nd"((uint16_t)(PORT_BASE + number)));
    return value;
}

#endif
