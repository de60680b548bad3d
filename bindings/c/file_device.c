/*
 * An example of a driver in C: a device of two images whose flash is a file. Each run of this
 * program is a power-up of the device. Kill it at any moment, and run it again.
 *
 *     bindings/build
 *     cc -I include bindings/c/file_device.c bindings/c/driver.c out/libbootswap.a -o out/device
 *     cp examples/images/[nop]*.img out
 *     cd out
 *     ./device flash provision one.img one.img
 *     ./device flash boot upload needing.img partner.img
 *     ./device flash boot confirm
 *
 * The commands run in their order. The second run uploads two images that need each other. The boot
 * of the third run takes them for a trial, and they are confirmed. Without `confirm`, the boot of
 * the next run reverts both, and starts the old images.
 */
#define _POSIX_C_SOURCE 200809L

#include <errno.h>
#include <fcntl.h>
#include <stdio.h>
#include <stdlib.h>
#include <string.h>
#include <unistd.h>

#include "driver.h"

/* Both images have two slots of two sectors, each with a sector for its trailer. One sector of
 * scratch and three of the log follow. */
enum { SECTOR = 512, IMAGES = 2, SLOT = 2 * SECTOR, FLASH = 16 * SECTOR };

/* Calls `pread` or `pwrite` until they moved all bytes. Both return 0 only at the file's end. */
static int read_all(int file, uint8_t *bytes, size_t length, off_t at) {
    while (length > 0) {
        ssize_t moved = pread(file, bytes, length, at);
        if (moved < 0 && errno == EINTR) {
            continue;
        }
        if (moved <= 0) {
            return -1;
        }
        bytes += moved, length -= (size_t)moved, at += moved;
    }
    return 0;
}

static int write_all(int file, const uint8_t *bytes, size_t length, off_t at) {
    while (length > 0) {
        ssize_t moved = pwrite(file, bytes, length, at);
        if (moved < 0 && errno == EINTR) {
            continue;
        }
        if (moved <= 0) {
            return -1;
        }
        bytes += moved, length -= (size_t)moved, at += moved;
    }
    return 0;
}

/* The driver. Its context is the file. A write is on the disk before its function returns. */
static int read_flash(void *context, uint32_t at, uint8_t *out, uint32_t length) {
    return read_all(*(int *)context, out, length, (off_t)at);
}

static int program_flash(void *context, uint32_t at, const uint8_t *bytes, uint32_t length) {
    int file = *(int *)context;
    return write_all(file, bytes, length, (off_t)at) == 0 ? fsync(file) : -1;
}

static int erase_flash(void *context, uint32_t at, uint32_t length) {
    uint8_t erased[SECTOR];
    if (length > sizeof erased) {
        return -1;
    }
    memset(erased, 0xff, length);
    return program_flash(context, at, erased, length);
}

static int file = -1;
static const struct bootswap_driver driver = {read_flash, program_flash, erase_flash, &file};
static const struct bootswap_setup setup = {
    .sector_size = SECTOR, .images = IMAGES, .sectors = {2, 2}, .trial_boots = 1};
static uint8_t copy[FLASH], journal[BOOTSWAP_JOURNAL_BOOT(IMAGES, SECTOR)];
static struct bootswap_device device = {.setup = &setup,
                                        .driver = &driver,
                                        .flash_length = FLASH,
                                        .copy = copy,
                                        .journal = journal,
                                        .journal_capacity = sizeof journal};

static void stop(const char *what) {
    perror(what);
    exit(1);
}

/* Ends the program unless a call returned the wanted status. */
static void must(const char *what, uint32_t status, uint32_t wanted) {
    if (status != wanted) {
        const struct bootswap_result *result = &device.result;
        fprintf(stderr, "%s: %u (fault %u, detail %u)\n", what, (unsigned)status,
                (unsigned)result->fault, (unsigned)result->detail);
        exit(1);
    }
}

static size_t load(const char *name, uint8_t *bytes, size_t capacity) {
    FILE *from = fopen(name, "rb");
    if (!from) {
        stop(name);
    }
    size_t length = fread(bytes, 1, capacity, from);
    fclose(from);
    return length;
}

/* Writes the images to their primary slots, as at the factory, and provisions the device. */
static void provision(char **names) {
    memset(copy, 0xff, FLASH);
    for (size_t image = 0; image < IMAGES; image++) {
        load(names[image], copy + image * (SLOT + SECTOR), SLOT);
    }
    if (write_all(file, copy, FLASH, 0) != 0 || fsync(file) != 0) {
        stop("the flash");
    }
    must("open", bootswap_open(&device), BOOTSWAP_DONE);
    must("provision", bootswap_device_provision(&device), BOOTSWAP_DONE);
}

/* Prints a line of a word and the images of a set. */
static void print_set(const char *word, uint32_t set) {
    printf("%s", word);
    for (uint32_t image = 0; image < IMAGES; image++) {
        if (set >> image & 1) {
            printf(" %u", (unsigned)image);
        }
    }
    printf("\n");
}

/* Prints the version of each running image. A bootloader jumps to them instead. */
static void print_running(void) {
    static struct bootswap_description it;
    for (uint8_t image = 0; image < IMAGES; image++) {
        must("slot", bootswap_slot(&setup, device.flash, FLASH, image, 0, &it), 0);
        printf("runs %u %u.%u.%u+%u\n", image, it.version.major, it.version.minor,
               it.version.revision, (unsigned)it.version.build);
    }
}

static void boot(void) {
    static char table[BOOTSWAP_MAX_TABLE_LENGTH], report[BOOTSWAP_MAX_REPORT_LENGTH];
    const struct bootswap_result *result = &device.result;
    uint32_t status =
        bootswap_device_boot_with_texts(&device, table, sizeof table, report, sizeof report);
    if (device.reverted != 0) {
        print_set("reverted", device.reverted);
    }
    if (status == BOOTSWAP_TRIAL_AGAIN) {
        print_set("trial-again", result->set);
    } else {
        must("boot", status, BOOTSWAP_BOOTED);
        const char *kind = result->permanent ? "permanent" : result->set ? "trial" : "plain";
        printf("%s\n%.*s", kind, (int)result->report_length, report);
    }
    print_running();
}

/* Uploads an image for each slot, for a trial, in pieces of at most one sector. */
static void upload(char **names) {
    static uint8_t images[IMAGES][SLOT];
    size_t lengths[IMAGES];
    struct bootswap_manifest manifest = {.sequence = 1, .count = IMAGES};
    for (uint8_t image = 0; image < IMAGES; image++) {
        struct bootswap_component *component = &manifest.components[image];
        struct bootswap_sha256 digest;
        lengths[image] = load(names[image], images[image], SLOT);
        bootswap_digest(images[image], lengths[image], &digest);
        component->image = image;
        component->size = (uint32_t)lengths[image];
        memcpy(component->digest, digest.bytes, sizeof component->digest);
    }
    must("accept", bootswap_device_accept(&device, &manifest), BOOTSWAP_DONE);
    for (uint8_t image = 0; image < IMAGES; image++) {
        for (size_t at = 0; at < lengths[image]; at += SECTOR) {
            size_t left = lengths[image] - at, length = left < SECTOR ? left : SECTOR;
            must("piece", bootswap_device_piece(&device, image, images[image] + at, length),
                 BOOTSWAP_DONE);
        }
        must("finish", bootswap_device_finish(&device, image), BOOTSWAP_DONE);
    }
}

static void confirm(void) {
    for (uint8_t image = 0; image < IMAGES; image++) {
        must("confirm", bootswap_device_confirm(&device, image), BOOTSWAP_DONE);
    }
}

/* Runs the command at the front of these arguments, and returns how many it takes, or 0. */
static int run(int count, char **words) {
    if (count > IMAGES && strcmp(words[0], "provision") == 0) {
        provision(words + 1);
        return 1 + IMAGES;
    }
    if (strcmp(words[0], "boot") == 0) {
        must("open", bootswap_open(&device), BOOTSWAP_DONE);
        boot();
        return 1;
    }
    if (count > IMAGES && strcmp(words[0], "upload") == 0) {
        upload(words + 1);
        return 1 + IMAGES;
    }
    if (strcmp(words[0], "confirm") == 0) {
        confirm();
        return 1;
    }
    return 0;
}

int main(int count, char **words) {
    int next = 2, taken = 1;
    if (count > next && (file = open(words[1], O_RDWR | O_CREAT, 0666)) < 0) {
        stop(words[1]);
    }
    while (next < count && taken > 0) {
        taken = run(count - next, words + next);
        next += taken;
    }
    if (count <= 2 || taken == 0) {
        fprintf(stderr, "usage: file_device FLASH [provision IMAGE IMAGE] [boot] "
                        "[upload IMAGE IMAGE] [confirm] ..\n");
        return 2;
    }
    return 0;
}
