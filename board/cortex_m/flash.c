/*
 * The driver, over an emulated flash: QEMU's machine has none that can be written. Its contents are
 * a file of the PC, so that they outlive QEMU. Memory beside the code shows them to the processor,
 * as a microcontroller's flash. A write changes the file, then that memory.
 *
 * It behaves as a part with units of 8 bytes: a program takes only erased units, each write takes
 * its time, and a power cut leaves a part of the units, or of an erase, done. On a board of one's
 * own the driver's functions write the registers of the flash controller, and there is no file.
 */
#include "flash.h"

#include <string.h>

#include "semihosting.h"
#include "serial.h"

/* The bytes of a program that are written at the same time, and those of an erase. Each takes this
 * number of microseconds, so a sector is erased in 16 ms and programmed in 51 ms. */
#define UNIT 8u
#define UNIT_TIME 100u
#define ERASED_AT_ONCE 256u
#define ERASE_TIME 1000u

/* The processor's timer. It counts down by 25 in a microsecond, and begins again after 0. */
struct timer {
    uint32_t control, reload, value;
};
#define TIMER_ON 0x5u
#define TIMER_MOST 0xffffffu
#define TICKS 25u

static volatile struct timer *const timer = (volatile struct timer *)0xe000e010;

extern uint8_t slots_start[];

static void wait(uint32_t microseconds) {
    uint32_t start = timer->value;
    while (((start - timer->value) & TIMER_MOST) < microseconds * TICKS) {
    }
}

/* Writes bytes to the file, and then to the memory that shows it. */
static bool write(uint32_t at, const uint8_t *bytes, uint32_t length, uint32_t microseconds) {
    if (!file_write(bytes, length)) {
        return false;
    }
    memcpy(slots_start + at, bytes, length);
    wait(microseconds);
    return true;
}

static bool is_erased(uint32_t at) {
    for (uint32_t i = 0; i < UNIT; i++) {
        if (slots_start[at + i] != 0xff) {
            return false;
        }
    }
    return true;
}

static int program(void *context, uint32_t at, const uint8_t *bytes, uint32_t length) {
    (void)context;
    if (!file_seek(at)) {
        return 1;
    }
    for (uint32_t i = 0; i < length; i += UNIT) {
        if (!is_erased(at + i) || !write(at + i, bytes + i, UNIT, UNIT_TIME)) {
            return 1;
        }
    }
    return 0;
}

static int erase(void *context, uint32_t at, uint32_t length) {
    uint8_t erased[ERASED_AT_ONCE];
    (void)context;
    if (length != FLASH_SECTOR || !file_seek(at)) {
        return 1;
    }
    memset(erased, 0xff, sizeof erased);
    for (uint32_t i = 0; i < length; i += sizeof erased) {
        if (!write(at + i, erased, sizeof erased, ERASE_TIME)) {
            return 1;
        }
    }
    return 0;
}

static const struct bootswap_driver driver = {.program = program, .erase = erase};

/* If the file isn't there, the flash has length 0, and bootswap refuses to boot. */
void flash_attach(struct bootswap_device *device) {
    const uint32_t length = FLASH_SECTORS * FLASH_SECTOR;
    timer->reload = TIMER_MOST;
    timer->value = 0;
    timer->control = TIMER_ON;
    device->driver = &driver;
    device->flash = slots_start;
    if (file_open() && file_seek(0) && file_read(slots_start, length)) {
        device->flash_length = length;
    } else {
        serial_write_text("no flash file\n");
    }
}
