/*
 * The driver: the functions that read and write the NOR flash of `virt`. Two parts of 16 bits with
 * Intel's CFI commands lie side by side, one in the low half of each 32-bit word, the other in the
 * high half. A command goes to both at the same time, and each has its own status.
 *
 * A sector of both has 256 KiB, and the largest sector of bootswap has 128 KiB. So the driver shows
 * the first 4 KiB of each: sector i of bootswap is the front of sector i of the flash. An erase
 * erases all 256 KiB. These fronts don't follow each other, so the library reads a copy in RAM.
 */
#include <stdbool.h>
#include <string.h>

#include "cfi.h"
#include "flash.h"

/* The second flash of the machine. The bootloader runs in the first one, so no code runs in the
 * part that is written. */
#define BASE 0x22000000u
#define PART_SECTOR 0x40000u

/* A command or a status of both parts. */
#define BOTH(value) ((uint32_t)(value) << 16 | (uint32_t)(value))

static uint8_t copy[FLASH_SECTORS * FLASH_SECTOR];

/* The address in the part of a byte of the map. */
static uintptr_t address_of(uint32_t at) {
    return BASE + at / FLASH_SECTOR * PART_SECTOR + at % FLASH_SECTOR;
}

static volatile uint32_t *word_at(uint32_t at) {
    return (volatile uint32_t *)address_of(at);
}

/* Waits until both parts are ready. Returns whether the write of one failed. */
static bool has_failed(volatile uint32_t *place) {
    uint32_t status;
    do {
        status = *place;
    } while ((status & BOTH(CFI_READY)) != BOTH(CFI_READY));
    return status & BOTH(CFI_FAILED);
}

/* Ends a row of commands, and returns what the driver's function returns. */
static int end_commands(volatile uint32_t *place, bool failed) {
    if (failed) {
        *place = BOTH(CFI_CLEAR_STATUS);
    }
    *place = BOTH(CFI_SHOW_CONTENTS);
    return failed;
}

static int read(void *context, uint32_t at, uint8_t *out, uint32_t length) {
    (void)context;
    while (length > 0) {
        uint32_t left = FLASH_SECTOR - at % FLASH_SECTOR;
        uint32_t count = length < left ? length : left;
        memcpy(out, (const void *)address_of(at), count);
        at += count;
        out += count;
        length -= count;
    }
    return 0;
}

/* Programs word by word. Erased words are 0xFFFFFFFF already. A range may end in a later sector
 * than it begins. */
static int program(void *context, uint32_t at, const uint8_t *bytes, uint32_t length) {
    bool failed = false;
    (void)context;
    for (uint32_t i = 0; i < length && !failed; i += 4) {
        uint32_t word;
        memcpy(&word, bytes + i, sizeof word);
        if (word != UINT32_MAX) {
            *word_at(at + i) = BOTH(CFI_PROGRAM);
            *word_at(at + i) = word;
            failed = has_failed(word_at(at + i));
        }
    }
    return end_commands(word_at(at), failed);
}

static int erase(void *context, uint32_t at, uint32_t length) {
    (void)context;
    if (length != FLASH_SECTOR) {
        return 1;
    }
    *word_at(at) = BOTH(CFI_ERASE);
    *word_at(at) = BOTH(CFI_CONFIRM);
    return end_commands(word_at(at), has_failed(word_at(at)));
}

static const struct bootswap_driver driver = {.read = read, .program = program, .erase = erase};

void flash_attach(struct bootswap_device *device) {
    device->driver = &driver;
    device->copy = copy;
    device->flash_length = sizeof copy;
}
