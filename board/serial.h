/* The serial port: the machine's first one, at 115,200 baud with 8 bits, no parity, 1 stop bit. */
#ifndef SERIAL_H
#define SERIAL_H

#include <stddef.h>
#include <stdint.h>

/* Sets the port up. */
void serial_start(void);

/* Waits for a byte, and returns it. */
char serial_read(void);

/* Write a byte, N bytes, a text that ends with a 0, and a number in decimal. */
void serial_write(char byte);
void serial_write_bytes(const char *bytes, size_t length);
void serial_write_text(const char *text);
void serial_write_number(uint32_t number);

#endif
