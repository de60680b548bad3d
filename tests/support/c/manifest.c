/* Reads the JSON text of a manifest in CAPACITY bytes of memory, for a device with two images. An empty text, or no
   memory, is passed as null.

       manifest VENDOR CLASS FILE CAPACITY

   The two UUIDs are 32 hexadecimal digits each. Prints the number that the call returns, its name, and the manifest. The
   status is 1 if the call wrote outside the memory, or changed a manifest that it refused. */
#include <stdio.h>
#include <stdlib.h>
#include <string.h>

#include "bootswap_names.h"
#include "manifest.h"

enum { LARGEST = 1 << 20, UNUSED = 0xee };

static struct bootswap_setup setup = {.sector_size = 512, .images = 2, .sectors = {2, 2}, .trial_boots = 1};
static char text[LARGEST];
static uint8_t memory[LARGEST];
static struct bootswap_manifest manifest, before;

static void must(int holds, const char *what) {
    if (!holds) {
        printf("%s\n", what);
        exit(1);
    }
}

static void read_uuid(const char *digits, uint8_t *bytes) {
    for (int i = 0; i < 16; i++) {
        char pair[] = {digits[2 * i], digits[2 * i + 1], 0};
        bytes[i] = (uint8_t)strtoul(pair, NULL, 16);
    }
}

static void print_hex(const char *what, const uint8_t *bytes) {
    printf("%s", what);
    for (int i = 0; i < 32; i++) printf("%02x", bytes[i]);
}

static void print_manifest(void) {
    printf("sequence %u\n", manifest.sequence);
    for (uint32_t i = 0; i < manifest.count; i++) {
        const struct bootswap_component *it = &manifest.components[i];
        printf("component %u %u %s", it->image, it->size, it->is_permanent ? "permanent" : "test");
        print_hex(" ", it->digest);
        if (it->has_precursor) print_hex(" precursor ", it->precursor);
        printf("\n");
    }
}

int main(int count, char **words) {
    must(count == 5, "usage: manifest VENDOR CLASS FILE CAPACITY");
    read_uuid(words[1], setup.vendor);
    read_uuid(words[2], setup.class_id);
    FILE *file = fopen(words[3], "rb");
    must(file != NULL, words[3]);
    size_t length = fread(text, 1, sizeof text, file), capacity = strtoul(words[4], NULL, 10);
    must(capacity < LARGEST - 1, "CAPACITY is too large");
    memset(memory, UNUSED, sizeof memory);
    memset(&before, UNUSED, sizeof before);
    manifest = before;

    uint32_t number =
        bootswap_read_manifest(&setup, length ? text : NULL, length, capacity ? memory + 1 : NULL, capacity, &manifest);
    must(memory[0] == UNUSED && memory[capacity + 1] == UNUSED, "it wrote outside its memory");
    if (number) {
        must(!memcmp(&manifest, &before, sizeof manifest), "a refused manifest was changed");
        printf("refused %u %s\n", number, bootswap_manifest_fault_name(number));
    } else {
        print_manifest();
    }
    return 0;
}
