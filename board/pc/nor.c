/*
 * The driver: the functions that write a parallel NOR flash, one byte wide, with the command set of
 * Intel's CFI parts.
 *
 * The processor reads the flash as memory. It writes a command to any address of a sector, and then
 * reads there the status of the part, until a last command shows the contents again.
 */
#include <stdbool.h>

#include "cfi.h"
#include "flash.h"

/* The first byte: QEMU places the part right below the firmware, which ends at 4 GiB. */
#define FIRMWARE 0x40000u
#define BASE (0x100000000u - FIRMWARE - FLASH_SECTORS * FLASH_SECTOR)

static volatile uint8_t *byte_at(uint32_t at) {
    return (volatile uint8_t *)(uintptr_t)(BASE + at);
}

/* Waits until the part is ready. Returns whether the write failed. */
static bool has_failed(volatile uint8_t *place) {
    uint8_t status;
    do {
        status = *place;
    } while (!(status & CFI_READY));
    return status & CFI_FAILED;
}

/* Ends a row of commands, and returns what the driver's function returns. */
static int end_commands(volatile uint8_t *place, bool failed) {
    if (failed) {
        *place = CFI_CLEAR_STATUS;
    }
    *place = CFI_SHOW_CONTENTS;
    return failed;
}

/* An erased byte is 0xFF already. */
static int program(void *context, uint32_t at, const uint8_t *bytes, uint32_t length) {
    bool failed = false;
    (void)context;
    for (uint32_t i = 0; i < length && !failed; i++) {
        if (bytes[i] != 0xff) {
            *byte_at(at + i) = CFI_PROGRAM;
            *byte_at(at + i) = bytes[i];
            failed = has_failed(byte_at(at + i));
        }
    }
    return end_commands(byte_at(at), failed);
}

static int erase(void *context, uint32_t at, uint32_t length) {
    (void)context;
    if (length != FLASH_SECTOR) {
        return 1;
    }
    *byte_at(at) = CFI_ERASE;
    *byte_at(at) = CFI_CONFIRM;
    return end_commands(byte_at(at), has_failed(byte_at(at)));
}

/* The library reads the flash as memory, so there is no function that reads. */
static const struct bootswap_driver driver = {.program = program, .erase = erase};

void flash_attach(struct bootswap_device *device) {
    device->driver = &driver;
    device->flash = (const uint8_t *)(uintptr_t)BASE;
    device->flash_length = FLASH_SECTORS * FLASH_SECTOR;
}
