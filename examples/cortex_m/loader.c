/* The loader: boots, and jumps into the application in its primary slot. */
#include "flash.h"
#include "jump.h"
#include "serial.h"

static const struct bootswap_setup setup = SETUP;
static _Alignas(8) uint8_t journal[JOURNAL_LENGTH];
static struct bootswap_device device = {
    .setup = &setup, .journal = journal, .journal_capacity = sizeof journal};

/* The body of the image, with its vector table at the front: ih_hdr_size bytes after its start. */
static void jump(void) {
    jump_to(device.flash + (device.flash[8] | device.flash[9] << 8), 0);
}

/* Boots. A device that isn't provisioned is: the factory wrote its image. */
static uint32_t boot(void) {
    uint32_t status = bootswap_device_boot(&device);
    if (status == BOOTSWAP_REFUSED && device.result.fault == BOOTSWAP_NOT_PROVISIONED &&
        bootswap_device_provision(&device) == BOOTSWAP_DONE) {
        serial_write_text("loader: provisioned\n");
        status = bootswap_device_boot(&device);
    }
    return status;
}

int main(void) {
    serial_start();
    serial_write_text("loader: starts\n");
    flash_attach(&device);
    uint32_t status = bootswap_open(&device);
    if (status == BOOTSWAP_DONE) {
        status = boot();
    }
    serial_write_text("loader: boot returns ");
    serial_write_number(status);
    serial_write_text("\n");
    if (status == BOOTSWAP_BOOTED || status == BOOTSWAP_TRIAL_AGAIN) {
        jump();
    }
    /* Start nothing. A serial line or the factory is the way out: docs/PORTING.md says how. */
    serial_write_text("loader: stops\n");
    return 1;
}
