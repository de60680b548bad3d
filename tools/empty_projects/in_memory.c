/* A device of one image whose flash is in memory, over the calls of driver.h: it is provisioned, boots, and takes an upload
   that the next boot swaps in. The arguments are the files of the two images. Without BOOTSWAP_WITHOUT_UPLOADS and
   BOOTSWAP_WITHOUT_TEXTS it prints the kind and the report of each boot; else it boots once, and prints the version that runs. */
#include <stdio.h>
#include <stdlib.h>
#include <string.h>

#include <driver.h>

enum { SECTOR = 512, SLOT = 2 * SECTOR, FLASH = 10 * SECTOR };

static uint8_t part[FLASH], journal[BOOTSWAP_JOURNAL_BOOT(1, SECTOR) + SLOT];

static int program(void *context, uint32_t at, const uint8_t *bytes, uint32_t length) {
    (void)context;
    memcpy(part + at, bytes, length);
    return 0;
}

static int erase(void *context, uint32_t at, uint32_t length) {
    (void)context;
    memset(part + at, 0xff, length);
    return 0;
}

static const struct bootswap_driver driver = {.program = program, .erase = erase};
static const struct bootswap_setup setup = {.sector_size = SECTOR, .images = 1, .sectors = {2}, .trial_boots = 1};
static struct bootswap_device device = {.setup = &setup, .driver = &driver, .flash = part, .flash_length = FLASH,
                                        .journal = journal, .journal_capacity = sizeof journal};

static size_t load(const char *name, uint8_t *bytes) {
    FILE *file = fopen(name, "rb");
    if (!file) exit(3);
    size_t length = fread(bytes, 1, SLOT, file);
    fclose(file);
    return length;
}

static void must(const char *what, uint32_t status, uint32_t wanted) {
    if (status != wanted) {
        printf("%s: %u (fault %u)\n", what, (unsigned)status, (unsigned)device.result.fault);
        exit(1);
    }
}

#if defined BOOTSWAP_WITHOUT_UPLOADS || defined BOOTSWAP_WITHOUT_TEXTS
static void live(const char *name) {
    (void)name;
    must("boot", bootswap_device_boot(&device), BOOTSWAP_BOOTED);
    const struct bootswap_version *it = &device.result.versions[0];
    printf("runs %u.%u.%u+%u\n", it->major, it->minor, it->revision, (unsigned)it->build);
}
#else
static void boot(void) {
    static char table[BOOTSWAP_MAX_TABLE_LENGTH], report[BOOTSWAP_MAX_REPORT_LENGTH];
    must("boot", bootswap_device_boot_with_texts(&device, table, sizeof table, report, sizeof report), BOOTSWAP_BOOTED);
    const struct bootswap_result *result = &device.result;
    const char *kind = result->permanent ? "permanent" : result->set ? "trial" : "plain";
    printf("%s\n%.*s", kind, (int)result->report_length, report);
}

static void live(const char *name) {
    static uint8_t image[SLOT];
    size_t length = load(name, image);
    struct bootswap_sha256 digest;
    struct bootswap_manifest manifest = {.sequence = 1, .count = 1};
    boot();
    bootswap_digest(image, length, &digest);
    manifest.components[0].size = (uint32_t)length;
    manifest.components[0].is_permanent = 1;
    memcpy(manifest.components[0].digest, digest.bytes, sizeof digest.bytes);
    must("accept", bootswap_device_accept(&device, &manifest), BOOTSWAP_DONE);
    must("piece", bootswap_device_piece(&device, 0, image, length), BOOTSWAP_DONE);
    must("finish", bootswap_device_finish(&device, 0), BOOTSWAP_DONE);
    boot();
}
#endif

int main(int count, char **words) {
    if (count != 3) return 2;
    memset(part, 0xff, sizeof part);
    load(words[1], part);
    must("open", bootswap_open(&device), BOOTSWAP_DONE);
    must("provision", bootswap_device_provision(&device), BOOTSWAP_DONE);
    live(words[2]);
    return 0;
}
