/* Flips single bits of the flash of a device of two images, and lets a bootloader start it. The flash is in one of eleven
   states: at rest, with requests, at each record of an upgrade and of its revert, in the middle of a swap, on trial.

       flips STEP ONE NEW0 NEW1

   Both images run ONE. The upgrade is to NEW0 and NEW1. Of each state the program flips each STEP-th bit. For each flip it
   writes the number of the state, that of the bit, and what the boot returned (4 bytes each), and then the contents of both
   primary slots. The first such entry of a state is without a flip: the number of its bit is 2^32 - 1. */
#include <stdio.h>
#include <stdlib.h>
#include <string.h>

#include "driver.h"

enum { SECTOR = 512, IMAGES = 2, SLOT = 2 * SECTOR, FLASH = 16 * SECTOR, STATES = 11, NO_BIT = -1 };

/* The kinds of a record of the log, as `struct bootswap_state` has them. */
enum kind { STEADY = 1, SWAP, SETTLE, TRIAL, BACK, BACK_SETTLE };

/* How a boot left a state: it was completed, or power failed at the first or in the middle of the writes after which the log
   has a record of this kind. NEW and REQUESTED are before the boot. */
enum place { NEW, REQUESTED, COMPLETED, FIRST, MIDDLE };

static const struct {
    uint32_t trial_boots;
    enum kind kind;
    enum place place;
} states[STATES] = {
    {1, STEADY, NEW},       {1, STEADY, REQUESTED}, {1, SWAP, FIRST},  {1, SWAP, MIDDLE},
    {1, SETTLE, FIRST},     {1, SETTLE, MIDDLE},    {1, TRIAL, COMPLETED}, {3, TRIAL, COMPLETED},
    {1, BACK, FIRST},       {1, BACK, MIDDLE},      {1, BACK_SETTLE, FIRST},
};

static uint8_t part[FLASH], copy[FLASH], journal[BOOTSWAP_JOURNAL_BOOT(IMAGES, SECTOR)];

/* The files of the images: what runs, and what is requested. */
static uint8_t files[1 + IMAGES][SLOT];
static size_t lengths[1 + IMAGES];

/* The number of writes that are made until power fails, and of those that were made. */
static uint32_t writes_left = UINT32_MAX, writes_made;

static void must(int holds, const char *what) {
    if (!holds) {
        fprintf(stderr, "%s\n", what);
        exit(1);
    }
}

static int read_part(void *context, uint32_t at, uint8_t *out, uint32_t length) {
    (void)context;
    memcpy(out, part + at, length);
    return 0;
}

static int write_part(uint32_t at, const uint8_t *bytes, uint32_t length) {
    if (writes_made == writes_left) {
        return -1;
    }
    writes_made++;
    memcpy(part + at, bytes, length);
    return 0;
}

static int program_part(void *context, uint32_t at, const uint8_t *bytes, uint32_t length) {
    (void)context;
    return write_part(at, bytes, length);
}

static int erase_part(void *context, uint32_t at, uint32_t length) {
    uint8_t erased[SECTOR];
    (void)context;
    must(length == SECTOR, "an erase isn't of a sector");
    memset(erased, 0xff, length);
    return write_part(at, erased, length);
}

static struct bootswap_setup setup = {.sector_size = SECTOR, .images = IMAGES, .sectors = {2, 2}};
static const struct bootswap_driver driver = {read_part, program_part, erase_part, NULL};
static struct bootswap_device device = {.setup = &setup,
                                        .driver = &driver,
                                        .flash_length = FLASH,
                                        .copy = copy,
                                        .journal = journal,
                                        .journal_capacity = sizeof journal};

/* Turns the device on. Power fails after this many writes. Returns the number of the boot. */
static uint32_t boot(uint32_t writes) {
    writes_made = 0, writes_left = UINT32_MAX;
    must(bootswap_open(&device) == BOOTSWAP_DONE, "open");
    writes_left = writes;
    uint32_t number = bootswap_device_boot(&device);
    writes_left = UINT32_MAX;
    return number;
}

static void provision(void) {
    memset(part, 0xff, FLASH);
    for (size_t image = 0; image < IMAGES; image++) {
        memcpy(part + image * (SLOT + SECTOR), files[0], lengths[0]);
    }
    must(bootswap_open(&device) == BOOTSWAP_DONE, "open");
    must(bootswap_device_provision(&device) == BOOTSWAP_DONE, "provision");
}

/* Uploads both images, for a trial. */
static void upload(void) {
    struct bootswap_manifest manifest = {.sequence = 1, .count = IMAGES};
    for (uint8_t image = 0; image < IMAGES; image++) {
        struct bootswap_sha256 digest;
        bootswap_digest(files[1 + image], lengths[1 + image], &digest);
        manifest.components[image].image = image;
        manifest.components[image].size = (uint32_t)lengths[1 + image];
        memcpy(manifest.components[image].digest, digest.bytes, sizeof digest.bytes);
    }
    must(boot(UINT32_MAX) == BOOTSWAP_BOOTED, "boot");
    must(bootswap_device_accept(&device, &manifest) == BOOTSWAP_DONE, "accept");
    for (uint8_t image = 0; image < IMAGES; image++) {
        const uint8_t *file = files[1 + image];
        for (size_t at = 0; at < lengths[1 + image]; at += SECTOR) {
            size_t left = lengths[1 + image] - at, length = left < SECTOR ? left : SECTOR;
            must(bootswap_device_piece(&device, image, file + at, length) == BOOTSWAP_DONE, "piece");
        }
        must(bootswap_device_finish(&device, image) == BOOTSWAP_DONE, "finish");
    }
}

static uint32_t kind_of_record(void) {
    struct bootswap_state state;
    return bootswap_state(&setup, part, FLASH, &state) == 0 ? state.kind : 0;
}

/* Boots a flash with a power cut, such that the log then has a record of this kind. */
static void boot_to(enum kind kind, enum place place) {
    static uint8_t first[FLASH];
    uint32_t found[FLASH], count = 0;
    memcpy(first, part, FLASH);
    boot(UINT32_MAX);
    uint32_t all = writes_made;
    for (uint32_t writes = 0; writes <= all; writes++) {
        memcpy(part, first, FLASH);
        boot(writes);
        if (kind_of_record() == (uint32_t)kind) {
            found[count++] = writes;
        }
    }
    must(count > 0, "no boot leaves such a record");
    memcpy(part, first, FLASH);
    boot(found[place == FIRST ? 0 : count / 2]);
}

/* Brings the flash into a state. */
static void make(size_t state) {
    enum kind kind = states[state].kind;
    enum place place = states[state].place;
    setup.trial_boots = states[state].trial_boots;
    provision();
    if (place != NEW) {
        upload();
    }
    if (kind >= TRIAL) {
        must(boot(UINT32_MAX) == BOOTSWAP_BOOTED, "the boot that begins the trial");
    }
    if (place == FIRST || place == MIDDLE) {
        boot_to(kind, place);
    }
    must(kind_of_record() == (uint32_t)kind, "the log has another record");
}

static void write_number(uint32_t number) {
    must(fwrite(&number, sizeof number, 1, stdout) == 1, "the output");
}

/* Lets the bootloader start a flash with this bit flipped, and writes the entry. */
static void start(size_t state, const uint8_t *whole, uint32_t bit) {
    memcpy(part, whole, FLASH);
    if (bit != (uint32_t)NO_BIT) {
        part[bit / 8] ^= (uint8_t)(1 << bit % 8);
    }
    write_number((uint32_t)state);
    write_number(bit);
    write_number(boot(UINT32_MAX));
    for (size_t image = 0; image < IMAGES; image++) {
        must(fwrite(part + image * (SLOT + SECTOR), SLOT, 1, stdout) == 1, "the output");
    }
}

int main(int count, char **words) {
    static uint8_t whole[FLASH];
    must(count == 5, "usage: flips STEP ONE NEW0 NEW1");
    uint32_t step = (uint32_t)strtoul(words[1], NULL, 10);
    must(step > 0, "the step is 1 or more");
    for (int i = 0; i <= IMAGES; i++) {
        FILE *file = fopen(words[2 + i], "rb");
        must(file != NULL, words[2 + i]);
        lengths[i] = fread(files[i], 1, SLOT, file);
        fclose(file);
    }
    for (size_t state = 0; state < STATES; state++) {
        make(state);
        memcpy(whole, part, FLASH);
        start(state, whole, (uint32_t)NO_BIT);
        for (uint32_t bit = (uint32_t)state % step; bit < 8 * FLASH; bit += step) {
            start(state, whole, bit);
        }
    }
    must(fflush(stdout) == 0, "the output");
    return 0;
}
