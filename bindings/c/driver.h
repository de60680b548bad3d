/*
 * bootswap over a flash driver in C: three functions of yours and a journal. Flash that isn't
 * mapped into memory also takes memory for a copy of it.
 *
 * A call of the library only reads the flash, and records its writes, in order, in the journal.
 * Then each write of the journal is performed through the driver. So the flash holds after each
 * write what the library counted on, also if power fails in between. docs/PORTING.md says why this
 * is right, and what a driver has to promise.
 */
#ifndef BOOTSWAP_DRIVER_H
#define BOOTSWAP_DRIVER_H

#include "bootswap.h"

#ifdef __cplusplus
extern "C" {
#endif

/*
 * A driver: how bytes of the flash are read and written. Addresses are in bytes from the first byte
 * of the map. Each function returns 0, or any other number if it failed. A write is complete, and
 * would survive a power cut, before its function returns.
 */
struct bootswap_driver {
    /* Reads `length` bytes from address `at` on. May be NULL if the flash is mapped into memory. */
    int (*read)(void *context, uint32_t at, uint8_t *out, uint32_t length);
    /* Programs erased bytes. `at` and `length` are multiples of 8, and `length` isn't 0. `bytes`
     * is aligned to 4 bytes if the journal is. */
    int (*program)(void *context, uint32_t at, const uint8_t *bytes, uint32_t length);
    /* Erases the sector that begins at address `at` and has `length` bytes, to 0xFF. */
    int (*erase)(void *context, uint32_t at, uint32_t length);
    /* Passed to each function. */
    void *context;
};

/* A device over a driver. The caller sets the first seven fields, and calls bootswap_open. */
struct bootswap_device {
    const struct bootswap_setup *setup;
    const struct bootswap_driver *driver;
    const uint8_t *flash;    /* the flash as the library reads it: the part itself if it is mapped
                                into memory. Else bootswap_open sets this to `copy`. */
    size_t flash_length;     /* in bytes, below 2^32: at least the map, in whole sectors */
    uint8_t *copy;           /* NULL if the part is mapped into memory. Else memory of
                                `flash_length` bytes for a copy of the flash. */
    uint8_t *journal;        /* where a call records its writes */
    size_t journal_capacity; /* its bytes: for a boot at least BOOTSWAP_JOURNAL_BOOT */
    struct bootswap_saved_state saved; /* the saved state */
    struct bootswap_result result;     /* the result of the last call. `writes` counts the writes of
                                          all its attempts. */
    uint8_t reverted;        /* bit i for image i: the images that the last call reverted, if it was
                                a boot. Else 0. */
    uint8_t is_stale;        /* 1 if the driver failed. bootswap_open resets it. */
};

/* What the calls below return beside a bootswap_status. */
enum bootswap_device_status {
    /* A function of the driver failed, now or in an earlier call, or the flash wasn't opened. The
     * device isn't booted. Every call returns this number until bootswap_open has opened the flash
     * again. */
    BOOTSWAP_DRIVER_FAILED = 32,
    /* The call might need a longer journal. Nothing changed, unless it was a boot: then the device
     * isn't booted. */
    BOOTSWAP_JOURNAL_TOO_SMALL = 33
};

/*
 * Opens the flash, and resets the device: it isn't booted then. Reads the flash into the copy if
 * there is one. Returns BOOTSWAP_DONE or BOOTSWAP_DRIVER_FAILED.
 */
uint32_t bootswap_open(struct bootswap_device *device);

/*
 * Opens the flash as bootswap_open does, for an application that a loader started: the device is
 * booted then, without uploads. The application doesn't boot: that uses a boot of a trial, or
 * reverts it. Returns BOOTSWAP_DONE or BOOTSWAP_DRIVER_FAILED.
 *
 * If the log says that a boot was interrupted, each later call is refused as BOOTSWAP_NOT_BOOTED.
 */
uint32_t bootswap_device_resume(struct bootswap_device *device);

/*
 * Each makes the call of the same name, and performs its writes through the driver. They return
 * what that call returns, or a bootswap_device_status. They need a journal of the call's bound in
 * bootswap.h, such as BOOTSWAP_JOURNAL_FINISH.
 */
uint32_t bootswap_device_provision(struct bootswap_device *device);

/*
 * Boots, and continues until a boot answers. After BOOTSWAP_REVERTED it boots once more: that boot
 * reads all images of the device, so it doesn't start the old ones if they are damaged or don't fit
 * each other. Returns what the last boot returned, or a bootswap_device_status, and never
 * BOOTSWAP_REVERTED. `result` is that of the last boot. `reverted` has the images that the boots
 * before it reverted, also if the last one failed or was refused.
 *
 * Start images after BOOTSWAP_BOOTED and BOOTSWAP_TRIAL_AGAIN only.
 *
 * A boot that finds the journal full continues with an empty one. It performs only whole steps of
 * its swap then, so that it erases no sector for a step that doesn't fit. Such a boot may make
 * three erases more than docs/PROOFS.md ("A boot's wear is bounded") says, and two more for each
 * image of the set. With sectors of less than 896 bytes it may also add one for each step, unless
 * the journal has another BOOTSWAP_JOURNAL_STEP.
 */
uint32_t bootswap_device_boot(struct bootswap_device *device);

/* The same, with the texts of the last boot. bootswap_journal_boot_with_texts says how. */
uint32_t bootswap_device_boot_with_texts(struct bootswap_device *device, char *table,
                                         size_t table_capacity, char *report,
                                         size_t report_capacity);

/* The other calls. */
uint32_t bootswap_device_accept(struct bootswap_device *device,
                                const struct bootswap_manifest *manifest);
uint32_t bootswap_device_piece(struct bootswap_device *device, uint8_t image, const uint8_t *bytes,
                               size_t bytes_length);
uint32_t bootswap_device_finish(struct bootswap_device *device, uint8_t image);
uint32_t bootswap_device_withdraw(struct bootswap_device *device, uint8_t image);
uint32_t bootswap_device_confirm(struct bootswap_device *device, uint8_t image);

#ifdef __cplusplus
}
#endif

#endif
