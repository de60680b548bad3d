/*
 * A device over a flash driver: makes each call, then performs the writes that the call recorded in
 * the journal, on the flash and on the copy of it if there is one. Allocates nothing, and has no
 * state of its own.
 *
 * BOOTSWAP_WITHOUT_TEXTS and BOOTSWAP_WITHOUT_UPLOADS leave calls out, as in bootswap.c.
 */
#include "driver.h"

#include <stdbool.h>
#include <string.h>

/* The journal's format: each write is three little-endian numbers of 4 bytes, its kind, its address
 * and its length. The bytes of a program follow. */
enum { PROGRAM = 0, ERASE = 1, HEADER = 12, UNIT = 8 };

static uint32_t number_at(const uint8_t *bytes) {
    return (uint32_t)bytes[0] | (uint32_t)bytes[1] << 8 | (uint32_t)bytes[2] << 16 |
           (uint32_t)bytes[3] << 24;
}

/* Ends a call whose writes weren't all performed: the flash isn't what the library counted on. */
static uint32_t fail(struct bootswap_device *device) {
    memset(&device->result, 0, sizeof device->result);
    bootswap_reset(&device->saved);
    device->is_stale = 1;
    return BOOTSWAP_DRIVER_FAILED;
}

/* Begins a call that asks for at most `needed` bytes of the journal. Returns BOOTSWAP_DONE, or why
 * it isn't made. */
static uint32_t begin(struct bootswap_device *device, size_t needed) {
    memset(&device->result, 0, sizeof device->result);
    device->reverted = 0;
    if (device->is_stale || device->flash == NULL) {
        return BOOTSWAP_DRIVER_FAILED;
    }
    return device->journal_capacity < needed ? BOOTSWAP_JOURNAL_TOO_SMALL : BOOTSWAP_DONE;
}

/* Whether a range isn't empty, and is within the flash. */
static bool is_within(const struct bootswap_device *device, uint32_t at, uint32_t length) {
    return length > 0 && length <= device->flash_length && at <= device->flash_length - length;
}

/* Erases a sector. Returns whether there is such a sector, and the driver erased it. */
static bool erase(const struct bootswap_device *device, uint32_t at, uint32_t length) {
    const struct bootswap_driver *driver = device->driver;
    if (length != device->setup->sector_size || at % length != 0 ||
        driver->erase(driver->context, at, length) != 0) {
        return false;
    }
    if (device->copy != NULL) {
        memset(device->copy + at, 0xFF, length);
    }
    return true;
}

/* Programs whole units. Returns whether the range is such, and the driver programmed it. */
static bool program(const struct bootswap_device *device, uint32_t at, const uint8_t *bytes,
                    uint32_t length) {
    const struct bootswap_driver *driver = device->driver;
    if (at % UNIT != 0 || length % UNIT != 0 ||
        driver->program(driver->context, at, bytes, length) != 0) {
        return false;
    }
    if (device->copy != NULL) {
        memcpy(device->copy + at, bytes, length);
    }
    return true;
}

/* Returns the length of the write at the front of these bytes of the journal, or 0 if they don't
 * begin with a write. */
static size_t length_of_write(const uint8_t *bytes, size_t left) {
    if (left < HEADER) {
        return 0;
    }
    uint32_t kind = number_at(bytes), length = number_at(bytes + 8);
    if (kind == ERASE) {
        return HEADER;
    }
    return kind == PROGRAM && length <= left - HEADER ? HEADER + (size_t)length : 0;
}

/* Performs a write of the journal, and returns whether the driver did so. */
static bool perform_write(const struct bootswap_device *device, const uint8_t *bytes) {
    uint32_t kind = number_at(bytes), at = number_at(bytes + 4), length = number_at(bytes + 8);
    if (!is_within(device, at, length)) {
        return false;
    }
    return kind == ERASE ? erase(device, at, length) : program(device, at, bytes + HEADER, length);
}

/* Performs the writes of the journal in their order, up to the first that fails, or that doesn't
 * end in the first `limit` bytes. Returns whether none failed. `result` has the performed ones. */
static bool perform(struct bootswap_device *device, size_t limit) {
    if (device->result.journal_length > device->journal_capacity) {
        return false;
    }
    size_t used = (size_t)device->result.journal_length, done = 0;
    uint64_t writes = 0;
    while (done < used) {
        size_t length = length_of_write(device->journal + done, used - done);
        if (length > limit - done) {
            break;
        }
        if (length == 0 || !perform_write(device, device->journal + done)) {
            return false;
        }
        done += length;
        writes++;
    }
    device->result.journal_length = done;
    device->result.writes = writes;
    return true;
}

/* Ends a call that is made once, and returned `status`. */
static uint32_t end(struct bootswap_device *device, uint32_t status) {
    return perform(device, SIZE_MAX) ? status : fail(device);
}

/* The attempts of a boot: how many bytes of a full journal each performs, the number of writes so
 * far, and how many further attempts may follow. */
struct attempts {
    size_t limit;
    uint64_t writes;
    uint64_t left;
};

/*
 * The most attempts of a boot that are cut, if the flash holds a state. It is proved that each of
 * them gets further: it counts a step of the swap, records another state, or settles a set. A swap
 * has three steps for each sector of its slots. A boot makes one swap at most, and five records.
 */
static uint64_t most_attempts(const struct bootswap_setup *setup) {
    uint64_t sectors = 0;
    for (size_t i = 0; i < setup->images && i < BOOTSWAP_MAX_IMAGES; i++) {
        sectors += setup->sectors[i];
    }
    return 3 * sectors + 16;
}

/* Ends an attempt that returned `*status`, and returns whether another one has to follow. A flash
 * that holds no state may cut each attempt, so there is an end to them. */
static bool has_to_follow(struct bootswap_device *device, struct attempts *attempts,
                          uint32_t *status) {
    if (!perform(device, *status == BOOTSWAP_CUT ? attempts->limit : SIZE_MAX)) {
        *status = fail(device);
        return false;
    }
    attempts->writes += device->result.writes;
    device->result.writes = attempts->writes;
    if (*status != BOOTSWAP_CUT) {
        return false;
    }
    if (attempts->left == 0) {
        *status = BOOTSWAP_JOURNAL_TOO_SMALL;
        return false;
    }
    attempts->left--;
    return true;
}

uint32_t bootswap_open(struct bootswap_device *device) {
    const struct bootswap_driver *driver = device->driver;
    uint32_t length = (uint32_t)device->flash_length;
    memset(&device->result, 0, sizeof device->result);
    device->reverted = 0;
    device->is_stale = 0;
    bootswap_reset(&device->saved);
    if (device->copy != NULL) {
        device->flash = device->copy;
    }
    if (length != device->flash_length || device->flash == NULL) {
        return fail(device);
    }
    if (device->copy != NULL && driver->read(driver->context, 0, device->copy, length) != 0) {
        return fail(device);
    }
    return BOOTSWAP_DONE;
}

uint32_t bootswap_device_resume(struct bootswap_device *device) {
    uint32_t status = bootswap_open(device);
    if (status == BOOTSWAP_DONE) {
        device->saved.is_booted = 1;
    }
    return status;
}

uint32_t bootswap_device_provision(struct bootswap_device *device) {
    uint32_t status = begin(device, BOOTSWAP_JOURNAL_PROVISION(device->setup->images));
    if (status != BOOTSWAP_DONE) {
        return status;
    }
    return end(device, bootswap_journal_provision(device->setup, device->flash,
                                                  device->flash_length, device->journal,
                                                  device->journal_capacity, &device->result));
}

/* The buffers for the texts of a boot. */
struct texts {
    char *table, *report;
    size_t table_capacity, report_capacity;
};

/* A boot of the library in this number of bytes of the journal. */
typedef uint32_t boot_call(struct bootswap_device *device, size_t capacity,
                           const struct texts *texts);

static uint32_t without_texts(struct bootswap_device *device, size_t capacity,
                              const struct texts *texts) {
    (void)texts;
    return bootswap_journal_boot(device->setup, device->flash, device->flash_length, &device->saved,
                                 device->journal, capacity, &device->result);
}

#ifndef BOOTSWAP_WITHOUT_TEXTS
static uint32_t with_texts(struct bootswap_device *device, size_t capacity,
                           const struct texts *texts) {
    return bootswap_journal_boot_with_texts(
        device->setup, device->flash, device->flash_length, &device->saved, device->journal,
        capacity, texts->table, texts->table_capacity, texts->report, texts->report_capacity,
        &device->result);
}
#endif

/* What a boot of a device with this number of images writes after the last step of its swap. */
static size_t after_steps(const struct bootswap_device *device, uint32_t images) {
    uint32_t sector_size = device->setup->sector_size;
    return BOOTSWAP_JOURNAL_BOOT(images, sector_size) - BOOTSWAP_JOURNAL_STEP(sector_size);
}

/* Boots, in one attempt or several. `result.writes` counts those of the boots before it too.
 *
 * An attempt has N steps of a swap in its journal, and what follows the last step. So the attempt
 * with the last step ends the boot. One that is cut performs the N steps alone, as if its journal
 * ended there: otherwise it would erase a sector for a step that doesn't fit, and the next attempt
 * again. If N steps are shorter than what a boot needs to get further, it performs everything. */
static uint32_t boot_once(struct bootswap_device *device, boot_call *call,
                          const struct texts *texts) {
    size_t step = BOOTSWAP_JOURNAL_STEP(device->setup->sector_size);
    size_t after = after_steps(device, device->setup->images);
    size_t steps = 0;
    /* Both are so, unless the setup has sizes of no map. The library refuses such a setup. */
    if (step > 0 && after <= device->journal_capacity) {
        steps = (device->journal_capacity - after) / step * step;
    }
    struct attempts attempts = {.limit = steps,
                                .writes = device->result.writes,
                                .left = most_attempts(device->setup)};
    if (steps < after_steps(device, BOOTSWAP_MAX_IMAGES)) {
        attempts.limit = SIZE_MAX;
    }
    uint32_t status;
    do {
        status = call(device, steps + after, texts);
    } while (has_to_follow(device, &attempts, &status));
    return status;
}

/* Boots, and once more after a boot that reverted. */
static uint32_t boot(struct bootswap_device *device, boot_call *call, const struct texts *texts) {
    const struct bootswap_setup *setup = device->setup;
    uint32_t status = begin(device, BOOTSWAP_JOURNAL_BOOT(setup->images, setup->sector_size));
    if (status == BOOTSWAP_JOURNAL_TOO_SMALL) {
        bootswap_reset(&device->saved);
    }
    if (status != BOOTSWAP_DONE) {
        return status;
    }
    status = boot_once(device, call, texts);
    if (status == BOOTSWAP_REVERTED) {
        device->reverted = (uint8_t)device->result.set;
        status = boot_once(device, call, texts);
    }
    /* A revert leaves the log at rest, so the second boot has nothing to revert. Also if its
     * journal is full: the write that begins a trial is the last one of a boot. */
    return status == BOOTSWAP_REVERTED ? fail(device) : status;
}

uint32_t bootswap_device_boot(struct bootswap_device *device) {
    return boot(device, without_texts, NULL);
}

#ifndef BOOTSWAP_WITHOUT_TEXTS
uint32_t bootswap_device_boot_with_texts(struct bootswap_device *device, char *table,
                                         size_t table_capacity, char *report,
                                         size_t report_capacity) {
    const struct texts texts = {table, report, table_capacity, report_capacity};
    return boot(device, with_texts, &texts);
}
#endif

#ifndef BOOTSWAP_WITHOUT_UPLOADS
/* The most bytes of a journal that a manifest asks for. */
static size_t bound_of(const struct bootswap_setup *setup,
                       const struct bootswap_manifest *manifest) {
    size_t components = 0, sectors = 0;
    for (; components < manifest->count && components < BOOTSWAP_MAX_IMAGES; components++) {
        uint8_t image = manifest->components[components].image;
        if (image < setup->images && image < BOOTSWAP_MAX_IMAGES) {
            sectors += setup->sectors[image];
        }
    }
    return BOOTSWAP_JOURNAL_ACCEPT(components, sectors);
}

uint32_t bootswap_device_accept(struct bootswap_device *device,
                                const struct bootswap_manifest *manifest) {
    uint32_t status = begin(device, bound_of(device->setup, manifest));
    if (status != BOOTSWAP_DONE) {
        return status;
    }
    return end(device, bootswap_journal_accept(device->setup, device->flash, device->flash_length,
                                               &device->saved, device->journal,
                                               device->journal_capacity, manifest,
                                               &device->result));
}

uint32_t bootswap_device_piece(struct bootswap_device *device, uint8_t image, const uint8_t *bytes,
                               size_t bytes_length) {
    uint32_t status = begin(device, BOOTSWAP_JOURNAL_PIECE(bytes_length));
    if (status != BOOTSWAP_DONE) {
        return status;
    }
    return end(device, bootswap_journal_piece(device->setup, device->flash, device->flash_length,
                                              &device->saved, device->journal,
                                              device->journal_capacity, image, bytes, bytes_length,
                                              &device->result));
}
#endif

/* A call on one image that takes nothing else. */
typedef uint32_t image_call(const struct bootswap_setup *setup, const uint8_t *flash,
                            size_t flash_length, struct bootswap_saved_state *saved,
                            uint8_t *journal, size_t journal_capacity, uint8_t image,
                            struct bootswap_result *result);

/* Makes a call on one image that asks for at most `needed` bytes of the journal. */
static uint32_t call_image(struct bootswap_device *device, size_t needed, image_call *call,
                           uint8_t image) {
    uint32_t status = begin(device, needed);
    if (status != BOOTSWAP_DONE) {
        return status;
    }
    return end(device, call(device->setup, device->flash, device->flash_length, &device->saved,
                            device->journal, device->journal_capacity, image, &device->result));
}

#ifndef BOOTSWAP_WITHOUT_UPLOADS
uint32_t bootswap_device_finish(struct bootswap_device *device, uint8_t image) {
    return call_image(device, BOOTSWAP_JOURNAL_FINISH, bootswap_journal_finish, image);
}

uint32_t bootswap_device_withdraw(struct bootswap_device *device, uint8_t image) {
    return call_image(device, BOOTSWAP_JOURNAL_WITHDRAW, bootswap_journal_withdraw, image);
}
#endif

uint32_t bootswap_device_confirm(struct bootswap_device *device, uint8_t image) {
    return call_image(device, BOOTSWAP_JOURNAL_CONFIRM, bootswap_journal_confirm, image);
}
