/* Writes bytes, texts and numbers to the serial port, byte by byte. */
#include "serial.h"

void serial_write_bytes(const char *bytes, size_t length) {
    while (length--) {
        serial_write(*bytes++);
    }
}

void serial_write_text(const char *text) {
    while (*text) {
        serial_write(*text++);
    }
}

void serial_write_number(uint32_t number) {
    if (number >= 10) {
        serial_write_number(number / 10);
    }
    serial_write((char)('0' + number % 10));
}
