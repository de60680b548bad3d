/*
 * The bootloader: it boots, runs the chosen images, and then takes events from the serial port.
 *
 * On a board of one's own, everything up to run_images() is the bootloader, and the events come to
 * the application, from a radio or a cable.
 */
#include <stdbool.h>

#include "driver.h"
#include "flash.h"
#include "images.h"
#include "replies.h"
#include "script.h"
#include "serial.h"
#include "stack.h"

/* Two images with slots of two sectors; trials of one boot. board/device.json says the same. */
static const struct bootswap_setup setup = {
    .sector_size = FLASH_SECTOR, .images = 2, .sectors = {2, 2}, .trial_boots = 1};

/* The longest journal is that of a boot, or of a piece. */
#define LARGER(one, other) ((one) > (other) ? (one) : (other))
static uint8_t journal[LARGER(BOOTSWAP_JOURNAL_BOOT(2, FLASH_SECTOR),
                              BOOTSWAP_JOURNAL_PIECE(MOST_BYTES))];
static char table[BOOTSWAP_MAX_TABLE_LENGTH], report[BOOTSWAP_MAX_REPORT_LENGTH];
static struct event event;

static struct bootswap_device device = {
    .setup = &setup, .journal = journal, .journal_capacity = sizeof journal};

static uint32_t open_and(uint32_t (*call)(void)) {
    uint32_t status = bootswap_open(&device);
    return status == BOOTSWAP_DONE ? call() : status;
}

static uint32_t boot(void) {
    return bootswap_device_boot_with_texts(&device, table, sizeof table, report, sizeof report);
}

static uint32_t provision(void) {
    return bootswap_device_provision(&device);
}

static uint32_t reset(void) {
    bootswap_reset(&device.saved);
    return BOOTSWAP_DONE;
}

static uint32_t answer(void) {
    switch (event.kind) {
    case EVENT_ACCEPT:
        return bootswap_device_accept(&device, &event.manifest);
    case EVENT_PIECE:
        return bootswap_device_piece(&device, event.image, event.bytes, event.length);
    case EVENT_FINISH:
        return bootswap_device_finish(&device, event.image);
    case EVENT_WITHDRAW:
        return bootswap_device_withdraw(&device, event.image);
    case EVENT_CONFIRM:
        return bootswap_device_confirm(&device, event.image);
    case EVENT_RESET:
        return reset();
    case EVENT_PROVISION:
        return open_and(provision);
    default:
        return open_and(boot);
    }
}

/* Whether the event was a boot, and what it returned lets the images run. No other status does. */
static bool may_run(uint32_t status) {
    return event.kind == EVENT_BOOT &&
           (status == BOOTSWAP_BOOTED || status == BOOTSWAP_TRIAL_AGAIN);
}

/* Answers event N, and returns the number of its last reply. */
static uint32_t answer_and_reply(uint32_t count) {
    uint32_t status = answer();
    if (event.kind == EVENT_BOOT && device.reverted != 0) {
        /* The device booted twice, as two events of a script. */
        reply_reverted(count++, device.reverted);
    }
    reply(count, status, &device.result, report);
    if (may_run(status)) {
        run_images(&device);
    }
    return count;
}

int main(void) {
    stack_paint();
    serial_start();
    flash_attach(&device);
    event.kind = EVENT_BOOT;
    for (uint32_t count = 1;; count++) {
        if (event.kind == EVENT_STACK) {
            reply_stack(count, stack_used(), stack_size());
        } else {
            count = answer_and_reply(count);
        }
        script_read(&event);
        while (event.kind == EVENT_UNREADABLE) {
            serial_write_text("unreadable\n");
            script_read(&event);
        }
    }
}
