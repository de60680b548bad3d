/*
 * The application. Version 1 takes an upload of version 2, which the linker put into it in place of
 * a radio, and resets. Version 2 is on trial then: it confirms itself.
 */
#include "flash.h"
#include "serial.h"

#define RESET_REGISTER (*(volatile uint32_t *)0xe000ed0c)
#define RESET 0x05fa0004u
#define PIECE 1000u
#define TRIAL 4u

static const struct bootswap_setup setup = SETUP;
static _Alignas(8) uint8_t journal[JOURNAL_LENGTH];
static struct bootswap_device device = {
    .setup = &setup, .journal = journal, .journal_capacity = sizeof journal};

/* The file of version 2. There is none in version 2 itself. */
extern const uint8_t upload_start[], upload_end[];

static uint32_t accept(const uint8_t *file, size_t length) {
    struct bootswap_manifest manifest = {.sequence = 1, .count = 1};
    struct bootswap_sha256 digest;
    bootswap_digest(file, length, &digest);
    manifest.components[0].size = (uint32_t)length;
    for (size_t i = 0; i < sizeof digest.bytes; i++) {
        manifest.components[0].digest[i] = digest.bytes[i];
    }
    return bootswap_device_accept(&device, &manifest);
}

static uint32_t upload(const uint8_t *file, size_t length) {
    uint32_t status = accept(file, length);
    for (size_t at = 0; status == BOOTSWAP_DONE && at < length; at += PIECE) {
        size_t left = length - at;
        status = bootswap_device_piece(&device, 0, file + at, left < PIECE ? left : PIECE);
    }
    return status == BOOTSWAP_DONE ? bootswap_device_finish(&device, 0) : status;
}

static uint32_t work(void) {
    struct bootswap_state state;
    uint32_t status = bootswap_state(&setup, device.flash, device.flash_length, &state);
    if (status == BOOTSWAP_DONE && state.kind == TRIAL) {
        serial_write_text("application: works, and confirms itself\n");
        return bootswap_device_confirm(&device, 0);
    }
    size_t length = (size_t)(upload_end - upload_start);
    if (status == BOOTSWAP_DONE && length > 0) {
        serial_write_text("application: takes an upload, and resets\n");
        status = upload(upload_start, length);
        if (status == BOOTSWAP_DONE) {
            RESET_REGISTER = RESET;
        }
    }
    return status;
}

int main(void) {
    serial_start();
    serial_write_text("application: version " VERSION "\n");
    flash_attach(&device);
    uint32_t status = bootswap_device_resume(&device);
    if (status == BOOTSWAP_DONE) {
        status = work();
    }
    serial_write_text("application: returns ");
    serial_write_number(status);
    serial_write_text("\n");
    return 0;
}
