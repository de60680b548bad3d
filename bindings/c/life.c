/*
 * An example in C: a device with one image is provisioned, receives an update, loses power in the boot that swaps it in,
 * and boots again. Prints the report of that boot.
 *
 *     bindings/build
 *     cc -I include bindings/c/life.c out/libbootswap.a -o out/life
 *     out/life examples/images/one.img examples/images/patched.img 20
 */
#include <stdio.h>
#include <stdlib.h>
#include <string.h>

#include "bootswap_simulate.h"

/* Each of the two slots has two sectors and one for its trailer. One sector of scratch and three of the log follow. */
static const struct bootswap_setup setup = {.sector_size = 512, .images = 1, .sectors = {2}, .trial_boots = 1};
enum { FLASH = 10 * 512 };
static uint8_t flash[FLASH];
static struct bootswap_saved_state saved;
static struct bootswap_result result;
static char table[BOOTSWAP_MAX_TABLE_LENGTH], report[BOOTSWAP_MAX_REPORT_LENGTH];

static size_t load(const char *name, uint8_t *bytes, size_t capacity) {
    FILE *file = fopen(name, "rb");
    if (!file) {
        perror(name);
        exit(1);
    }
    size_t length = fread(bytes, 1, capacity, file);
    fclose(file);
    return length;
}

static void must(const char *what, uint32_t status, uint32_t wanted) {
    if (status != wanted) {
        fprintf(stderr, "%s: %u (fault %u, detail %u)\n", what, status, result.fault, result.detail);
        exit(1);
    }
}

static uint32_t boot(const struct bootswap_cut *cuts, size_t count) {
    return bootswap_simulate_boot(&setup, flash, FLASH, &saved, cuts, count, table, sizeof table, report, sizeof report,
                                  &result);
}

int main(int count, char **words) {
    static uint8_t image[1024];
    static struct bootswap_sha256 digest;
    struct bootswap_cut cut = {.residue = 2, .pattern_length = 1, .pattern = {0x5a}};
    if (count != 4) {
        fprintf(stderr, "usage: life RUNNING NEW WRITE\n");
        return 2;
    }
    cut.write = strtoull(words[3], NULL, 10);

    memset(flash, 0xff, FLASH);
    load(words[1], flash, 1024);
    must("provision", bootswap_simulate_provision(&setup, flash, FLASH, &cut, 0, &result), BOOTSWAP_DONE);
    must("boot", boot(&cut, 0), BOOTSWAP_BOOTED);

    size_t length = load(words[2], image, sizeof image);
    bootswap_digest(image, length, &digest);
    struct bootswap_manifest manifest = {.sequence = 1, .count = 1};
    manifest.components[0].size = length;
    manifest.components[0].is_permanent = 1;
    memcpy(manifest.components[0].digest, digest.bytes, 32);
    must("accept", bootswap_simulate_accept(&setup, flash, FLASH, &saved, &cut, 0, &manifest, &result), BOOTSWAP_DONE);
    must("piece", bootswap_simulate_piece(&setup, flash, FLASH, &saved, &cut, 0, 0, image, length, &result),
         BOOTSWAP_DONE);
    must("finish", bootswap_simulate_finish(&setup, flash, FLASH, &saved, &cut, 0, 0, &result), BOOTSWAP_DONE);

    must("the boot that is cut", boot(&cut, 1), BOOTSWAP_CUT);
    printf("power failed in write %llu\n", (unsigned long long)result.writes);
    must("the boot after it", boot(&cut, 0), BOOTSWAP_BOOTED);
    const char *kind = result.permanent ? "permanent" : result.set ? "trial" : "plain";
    printf("%s\n%.*s", kind, (int)result.report_length, report);
    return 0;
}
