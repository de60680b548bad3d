/* Boots a device of IMAGES images three times, for a test that counts the instructions of each boot: first nothing is
   requested; then an upgrade of each image is, which the boot takes; the last boot reverts them.

       boots RUNNING NEW IMAGES

   RUNNING is the file of the image that runs in each slot, NEW that of its upgrade. If a call returns another number than
   it should, the status is 1. */
#include <stdio.h>
#include <stdlib.h>
#include <string.h>

#include "bootswap_simulate.h"

enum { SECTOR = 4096, SLOT = 5, MOST = BOOTSWAP_MAX_IMAGES * 2 * (SLOT + 1) + 4 };

static struct bootswap_setup setup = {.sector_size = SECTOR, .trial_boots = 1};
static uint8_t flash[MOST * SECTOR], new[SLOT * SECTOR];
static size_t size;
static struct bootswap_saved_state saved;
static struct bootswap_result result;
static char table[BOOTSWAP_MAX_TABLE_LENGTH], report[BOOTSWAP_MAX_REPORT_LENGTH];

static void must(int holds, const char *what) {
    if (!holds) {
        printf("%s: fault %u, detail %u\n", what, result.fault, result.detail);
        exit(1);
    }
}

static size_t load(const char *name, uint8_t *bytes) {
    FILE *file = fopen(name, "rb");
    must(file != NULL, name);
    size_t length = fread(bytes, 1, SLOT * SECTOR, file);
    fclose(file);
    return length;
}

/* Marks the end of a boot, and of a digest, for the tool that counts instructions. */
__attribute__((noinline)) void booted(void) { __asm__ volatile(""); }
__attribute__((noinline)) void digested(void) { __asm__ volatile(""); }

static uint32_t boot(void) {
    uint32_t number = bootswap_simulate_boot(&setup, flash, size, &saved, NULL, 0, table, sizeof table, report,
                                             sizeof report, &result);
    booted();
    return number;
}

/* Uploads an image for a test to each slot. */
static void upload(size_t length) {
    static struct bootswap_sha256 digest;
    static struct bootswap_manifest manifest = {.sequence = 1};
    bootswap_digest(new, length, &digest);
    digested();
    manifest.count = setup.images;
    for (uint8_t image = 0; image < setup.images; image++) {
        manifest.components[image].image = image;
        manifest.components[image].size = (uint32_t)length;
        memcpy(manifest.components[image].digest, digest.bytes, sizeof digest.bytes);
    }
    must(!bootswap_simulate_accept(&setup, flash, size, &saved, NULL, 0, &manifest, &result), "accept");
    for (uint8_t image = 0; image < setup.images; image++) {
        must(!bootswap_simulate_piece(&setup, flash, size, &saved, NULL, 0, image, new, length, &result), "piece");
        must(!bootswap_simulate_finish(&setup, flash, size, &saved, NULL, 0, image, &result), "finish");
    }
}

int main(int count, char **words) {
    must(count == 4, "usage: boots RUNNING NEW IMAGES");
    setup.images = (uint32_t)strtoul(words[3], NULL, 10);
    must(setup.images >= 1 && setup.images <= BOOTSWAP_MAX_IMAGES, "a device has 1 to 8 images");
    size = (setup.images * 2 * (SLOT + 1) + 4) * SECTOR;
    memset(flash, 0xff, size);
    for (uint32_t image = 0; image < setup.images; image++) {
        setup.sectors[image] = SLOT;
        load(words[1], flash + image * (SLOT + 1) * SECTOR);
    }
    size_t length = load(words[2], new);

    must(!bootswap_simulate_provision(&setup, flash, size, NULL, 0, &result), "provision");
    must(boot() == BOOTSWAP_BOOTED, "the first boot");
    upload(length);
    must(boot() == BOOTSWAP_BOOTED, "the boot that upgrades");
    must(boot() == BOOTSWAP_REVERTED, "the boot that reverts");
    return 0;
}
