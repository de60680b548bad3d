/* The serial port of a machine that has a 16550, polled. port.h accesses its registers. */
#include "port.h"
#include "serial.h"

/* Registers, and the bits of the line's status. */
enum { DATA, INTERRUPTS, FIFOS, LINE, STATUS = 5 };
#define STATUS_RECEIVED 0x01
#define STATUS_MAY_WRITE 0x20

void serial_start(void) {
    port_write(INTERRUPTS, 0);
    port_write(LINE, 0x80); /* the next two bytes are the divisor of 115,200 baud */
    port_write(DATA, PORT_DIVISOR);
    port_write(INTERRUPTS, 0);
    port_write(LINE, 0x03); /* 8 bits, no parity, 1 stop bit */
    port_write(FIFOS, 0x07);
}

char serial_read(void) {
    while (!(port_read(STATUS) & STATUS_RECEIVED)) {
    }
    return (char)port_read(DATA);
}

void serial_write(char byte) {
    while (!(port_read(STATUS) & STATUS_MAY_WRITE)) {
    }
    port_write(DATA, (uint8_t)byte);
}
