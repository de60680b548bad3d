/*
 * How long an upload of 16 MiB takes by the number of its pieces: pieces IMAGE ROUNDS. The image runs, and isn't replaced.
 *
 * Prints a line for each number of pieces: the CPU time of the pieces, and of `finish` after them, in milliseconds, each the
 * shortest of the rounds. The bytes have another digest than the manifest's, so `finish` hashes them and refuses them.
 */
#include <stdbool.h>
#include <stdio.h>
#include <stdlib.h>
#include <string.h>
#include <time.h>

#include "bootswap_simulate.h"

enum { SECTOR = 131072, SECTORS = 128, SLOT = SECTOR * SECTORS, FLASH = (2 * (SECTORS + 1) + 4) * SECTOR };

static const struct bootswap_setup SETUP = {.sector_size = SECTOR, .images = 1, .sectors = {SECTORS}, .trial_boots = 1};

static uint8_t flash[FLASH], bytes[SLOT], image[4096];
static struct bootswap_saved_state saved;
static struct bootswap_result result;

static double now(void) {
    struct timespec at;
    clock_gettime(CLOCK_PROCESS_CPUTIME_ID, &at);
    return (double)at.tv_sec * 1e3 + (double)at.tv_nsec * 1e-6;
}

static void expect(bool is_so, const char *what) {
    if (!is_so) {
        fprintf(stderr, "%s: fault %u, detail %u\n", what, result.fault, result.detail);
        exit(1);
    }
}

/* Makes the device anew, with an open upload of all bytes. */
static void open_upload(size_t image_length) {
    struct bootswap_manifest manifest = {.sequence = 1, .count = 1};
    manifest.components[0].size = SLOT;
    memset(flash, 0xff, sizeof flash);
    memcpy(flash, image, image_length);
    memset(&saved, 0, sizeof saved);
    expect(bootswap_simulate_provision(&SETUP, flash, FLASH, NULL, 0, &result) == BOOTSWAP_DONE, "provision");
    expect(bootswap_simulate_boot(&SETUP, flash, FLASH, &saved, NULL, 0, NULL, 0, NULL, 0, &result) == BOOTSWAP_BOOTED,
           "boot");
    expect(bootswap_simulate_accept(&SETUP, flash, FLASH, &saved, NULL, 0, &manifest, &result) == BOOTSWAP_DONE,
           "accept");
}

/* Sends all bytes in a number of pieces, and returns how long that takes. */
static double send(size_t pieces) {
    double from = now();
    for (size_t piece = 0; piece < pieces; piece++) {
        size_t first = (size_t)SLOT * piece / pieces, end = (size_t)SLOT * (piece + 1) / pieces;
        uint32_t number =
            bootswap_simulate_piece(&SETUP, flash, FLASH, &saved, NULL, 0, 0, bytes + first, end - first, &result);
        expect(number == BOOTSWAP_DONE, "piece");
    }
    return now() - from;
}

static double finish(void) {
    double from = now();
    uint32_t number = bootswap_simulate_finish(&SETUP, flash, FLASH, &saved, NULL, 0, 0, &result);
    expect(number == BOOTSWAP_REFUSED && result.detail == BOOTSWAP_DIGEST_WRONG, "finish");
    return now() - from;
}

int main(int count, char **words) {
    static const size_t PIECES[] = {1, 256, 2000};
    FILE *file = count == 3 ? fopen(words[1], "rb") : NULL;
    if (!file) {
        fputs("usage: pieces IMAGE ROUNDS\n", stderr);
        return 2;
    }
    size_t image_length = fread(image, 1, sizeof image, file);
    fclose(file);
    for (size_t at = 0; at < SLOT; at++) {
        bytes[at] = (uint8_t)(at * 2654435761u >> 13);
    }
    for (size_t kind = 0; kind < sizeof PIECES / sizeof PIECES[0]; kind++) {
        double sent = 1e9, finished = 1e9;
        for (long round = strtol(words[2], NULL, 10); round > 0; round--) {
            open_upload(image_length);
            double took = send(PIECES[kind]);
            sent = took < sent ? took : sent;
            took = finish();
            finished = took < finished ? took : finished;
        }
        printf("%4zu pieces: %5.1f ms; finish %5.1f ms\n", PIECES[kind], sent, finished);
    }
    return 0;
}
