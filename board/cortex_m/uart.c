/* The first serial port of the machine, a CMSDK UART, polled. */
#include "serial.h"

struct uart {
    uint32_t data, state, control, interrupts, divisor;
};

#define STATE_MAY_NOT_WRITE 0x1u
#define STATE_RECEIVED 0x2u
#define CONTROL_WRITES_AND_READS 0x3u
#define CLOCK 25000000u

static volatile struct uart *const port = (volatile struct uart *)0x40004000;

void serial_start(void) {
    port->divisor = CLOCK / 115200;
    port->control = CONTROL_WRITES_AND_READS;
}

char serial_read(void) {
    while (!(port->state & STATE_RECEIVED)) {
    }
    return (char)port->data;
}

void serial_write(char byte) {
    while (port->state & STATE_MAY_NOT_WRITE) {
    }
    port->data = (uint8_t)byte;
}
