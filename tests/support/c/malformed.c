/* Makes a call of a device of one image, whose library is a stand-in: each of its calls returns a number, and says that it
   used a number of bytes of the journal.

       malformed CALL NUMBER USED JOURNAL

   CALL is `confirm` or `boot`. JOURNAL is in hexadecimal digits: its bytes are at the end of a page that no page follows.
   Prints what driver.c asks of its driver, and then what the call returns, how many calls of the library it made, and
   whether the device is booted. */
#define _DEFAULT_SOURCE
#include <stdio.h>
#include <stdlib.h>
#include <string.h>
#include <sys/mman.h>

#include "driver.h"

enum { PAGE = 4096, SECTOR = 512, FLASH = 10 * SECTOR };

static uint32_t returned, attempts;
static uint64_t used;

static uint32_t answer(struct bootswap_result *result) {
    memset(result, 0, sizeof *result);
    result->journal_length = used;
    result->writes = 1;
    attempts++;
    return returned;
}

#define BEGIN const struct bootswap_setup *setup, const uint8_t *flash, size_t flash_length
#define DEVICE BEGIN, struct bootswap_saved_state *saved
#define END uint8_t *journal, size_t journal_capacity
#define CALL(name, ...) \
    uint32_t bootswap_journal_##name(__VA_ARGS__, struct bootswap_result *result) { \
        return answer(result); \
    }
#pragma GCC diagnostic ignored "-Wunused-parameter"

CALL(provision, BEGIN, END)
CALL(boot, DEVICE, END)
CALL(boot_with_texts, DEVICE, END, char *table, size_t table_capacity, char *report, size_t report_capacity)
CALL(accept, DEVICE, END, const struct bootswap_manifest *manifest)
CALL(piece, DEVICE, END, uint8_t image, const uint8_t *bytes, size_t bytes_length)
CALL(finish, DEVICE, END, uint8_t image)
CALL(withdraw, DEVICE, END, uint8_t image)
CALL(confirm, DEVICE, END, uint8_t image)

void bootswap_reset(struct bootswap_saved_state *saved) { memset(saved, 0, sizeof *saved); }

static int read_part(void *context, uint32_t at, uint8_t *out, uint32_t length) { return 0; }

static int program_part(void *context, uint32_t at, const uint8_t *bytes, uint32_t length) {
    printf("program %u ", at);
    while (length-- > 0) printf("%02x", *bytes++);
    printf("\n");
    return 0;
}

static int erase_part(void *context, uint32_t at, uint32_t length) {
    printf("erase %u %u\n", at, length);
    return 0;
}

int main(int count, char **words) {
    static const struct bootswap_setup setup = {.sector_size = SECTOR, .images = 1, .sectors = {2}, .trial_boots = 1};
    static const struct bootswap_driver driver = {read_part, program_part, erase_part, NULL};
    static uint8_t copy[FLASH];
    if (count != 5) return 2;
    size_t length = strlen(words[4]) / 2, pages = (length / PAGE + 1) * PAGE;
    uint8_t *place = mmap(NULL, pages + PAGE, PROT_READ | PROT_WRITE, MAP_PRIVATE | MAP_ANONYMOUS, -1, 0);
    if (place == MAP_FAILED || mprotect(place + pages, PAGE, PROT_NONE)) return 3;
    uint8_t *journal = place + pages - length;
    for (size_t i = 0; i < length; i++) sscanf(words[4] + 2 * i, "%2hhx", &journal[i]);
    struct bootswap_device device = {&setup, &driver, NULL, FLASH, copy, journal, length, {0}, {0}, 0, 0};
    returned = (uint32_t)strtoul(words[2], NULL, 10);
    used = strtoull(words[3], NULL, 10);
    if (bootswap_open(&device) != BOOTSWAP_DONE) return 4;
    device.saved.is_booted = 1;
    uint32_t number = words[1][0] == 'b' ? bootswap_device_boot(&device) : bootswap_device_confirm(&device, 0);
    printf("%u %u %u\n", number, attempts, device.saved.is_booted);
    return 0;
}
