/*
 * Measures how many bytes of stack each call of the library takes: each runs on a stack of its own that was filled with a
 * pattern before, and the bytes that it changed are counted. The device has eight images, as many as a device may have. Its
 * calls are those with a journal, which take more than those with cuts.
 *
 *     stack RUNNING NEW
 *
 * RUNNING is the file of the image that runs in each slot, NEW that of its upgrade.
 */
#define _XOPEN_SOURCE 700
#include <stdio.h>
#include <stdlib.h>
#include <string.h>
#include <ucontext.h>

#include "bootswap.h"

enum { IMAGES = 8, SECTOR = 512, SLOT = 2, SECTORS = IMAGES * 2 * (SLOT + 1) + 4, STACK = 1 << 20, MARK = 0xa5 };

static const struct bootswap_setup setup = {.sector_size = SECTOR,
                                            .images = IMAGES,
                                            .sectors = {SLOT, SLOT, SLOT, SLOT, SLOT, SLOT, SLOT, SLOT},
                                            .trial_boots = 2};
static uint8_t flash[SECTORS * SECTOR], journal[1 << 16], running[SLOT * SECTOR], new[SLOT * SECTOR];
static size_t running_length, new_length;
static struct bootswap_saved_state saved;
static struct bootswap_result result;
static struct bootswap_manifest manifest;
static struct bootswap_description description;
static struct bootswap_state in_log;
static struct bootswap_sha256 digest;
static struct bootswap_workspace workspace;
static char table[BOOTSWAP_MAX_TABLE_LENGTH], report[BOOTSWAP_MAX_REPORT_LENGTH];
static uint64_t number;

static _Alignas(16) uint8_t stack[STACK];
static ucontext_t caller, called;
static uint32_t returned;
static uint8_t image;

/* What each call of a device takes first. */
#define DEVICE &setup, flash, sizeof flash, &saved, journal, sizeof journal

static void provision(void) {
    returned = bootswap_journal_provision(&setup, flash, sizeof flash, journal, sizeof journal, &result);
}

static void boot(void) { returned = bootswap_journal_boot(DEVICE, &result); }

static void boot_with_texts(void) {
    returned = bootswap_journal_boot_with_texts(DEVICE, table, sizeof table, report, sizeof report, &result);
}

static void accept(void) { returned = bootswap_journal_accept(DEVICE, &manifest, &result); }

static void piece(void) { returned = bootswap_journal_piece(DEVICE, image, new, new_length, &result); }

static void finish(void) { returned = bootswap_journal_finish(DEVICE, image, &result); }

static void withdraw(void) { returned = bootswap_journal_withdraw(DEVICE, image, &result); }

static void confirm(void) { returned = bootswap_journal_confirm(DEVICE, image, &result); }

static void slot(void) { returned = bootswap_slot(&setup, flash, sizeof flash, image, 0, &description); }

static void state(void) { returned = bootswap_state(&setup, flash, sizeof flash, &in_log); }

static void describe(void) { returned = bootswap_describe(new, new_length, &description); }

static void digest_of(void) {
    bootswap_digest(new, new_length, &digest);
    returned = 0;
}

static void choose(void) { returned = bootswap_choose(table, result.table_length, report, sizeof report, &number); }

static void check(void) { returned = bootswap_check(table, result.table_length, report, number, &number); }

static void choose_in(void) {
    returned = bootswap_choose_in(&workspace, table, result.table_length, report, sizeof report, &number);
}

static void check_in(void) {
    returned = bootswap_check_in(&workspace, table, result.table_length, report, number, &number);
}

/* Nothing: what the frame around a call takes. */
static void nothing(void) { returned = 0; }

/* Runs a call on a stack of its own, and returns the number of bytes that it changed there. */
static size_t bytes_of(void (*call)(void)) {
    memset(stack, MARK, sizeof stack);
    getcontext(&called);
    called.uc_stack.ss_sp = stack;
    called.uc_stack.ss_size = sizeof stack;
    called.uc_link = &caller;
    makecontext(&called, call, 0);
    swapcontext(&caller, &called);
    size_t low = 0;
    while (low < sizeof stack && stack[low] == MARK) low++;
    return sizeof stack - low;
}

struct row {
    const char *name;
    void (*call)(void);
    size_t most;
};

static struct row rows[] = {
    {"provision", provision, 0}, {"boot", boot, 0},         {"boot_with_texts", boot_with_texts, 0},
    {"accept", accept, 0},       {"piece", piece, 0},       {"finish", finish, 0},
    {"withdraw", withdraw, 0},   {"confirm", confirm, 0},   {"slot", slot, 0},
    {"state", state, 0},         {"describe", describe, 0}, {"digest", digest_of, 0},
    {"choose", choose, 0},       {"check", check, 0},       {"choose_in", choose_in, 0},
    {"check_in", check_in, 0},
};

static size_t number_at(size_t at) {
    return journal[at] | (size_t)journal[at + 1] << 8 | (size_t)journal[at + 2] << 16 | (size_t)journal[at + 3] << 24;
}

/* Makes the writes that a call recorded, since the call itself only reads the flash. */
static void make_writes(void) {
    for (size_t at = 0; at < result.journal_length; at += 12) {
        size_t kind = number_at(at), start = number_at(at + 4), length = number_at(at + 8);
        if (kind == 1) {
            memset(flash + start, 0xff, length);
        } else {
            memcpy(flash + start, journal + at + 12, length);
            at += length;
        }
    }
    result.journal_length = 0;
}

/* Makes a call, which has to return what is wanted, and keeps the most bytes that it took. */
static void measure(const char *name, uint32_t wanted) {
    size_t frame = bytes_of(nothing);
    for (size_t i = 0; i < sizeof rows / sizeof *rows; i++) {
        struct row *row = &rows[i];
        if (strcmp(row->name, name)) continue;
        size_t bytes = bytes_of(row->call) - frame;
        if (returned != wanted) {
            fprintf(stderr, "%s of image %u: %u (fault %u, detail %u)\n", name, image, returned, result.fault,
                    result.detail);
            exit(1);
        }
        if (bytes > row->most) row->most = bytes;
    }
}

static void run(const char *name) {
    measure(name, BOOTSWAP_DONE);
    make_writes();
}

/* Boots without texts and with them, from the same state. */
static void run_boot(uint32_t wanted) {
    struct bootswap_saved_state before = saved;
    measure("boot", wanted);
    saved = before;
    measure("boot_with_texts", wanted);
    make_writes();
}

static size_t load(const char *name, uint8_t *bytes) {
    FILE *file = fopen(name, "rb");
    if (!file) {
        perror(name);
        exit(1);
    }
    size_t length = fread(bytes, 1, SLOT * SECTOR, file);
    fclose(file);
    return length;
}

/* Accepts a manifest of all images, and uploads them. */
static void upload(uint32_t sequence) {
    manifest.sequence = sequence;
    run("accept");
    for (image = 0; image < IMAGES; image++) {
        run("piece");
        run("finish");
    }
}

int main(int count, char **words) {
    if (count != 3) {
        fprintf(stderr, "usage: stack RUNNING NEW\n");
        return 2;
    }
    running_length = load(words[1], running);
    new_length = load(words[2], new);
    memset(flash, 0xff, sizeof flash);
    bootswap_digest(new, new_length, &digest);
    manifest.count = IMAGES;
    for (image = 0; image < IMAGES; image++) {
        memcpy(flash + image * (SLOT + 1) * SECTOR, running, running_length);
        manifest.components[image].image = image;
        manifest.components[image].size = (uint32_t)new_length;
        memcpy(manifest.components[image].digest, digest.bytes, sizeof digest.bytes);
    }

    run("provision");
    run_boot(BOOTSWAP_BOOTED);
    upload(1);
    for (image = 0; image < IMAGES; image++) run("withdraw");
    upload(2);
    run_boot(BOOTSWAP_BOOTED);
    run("choose");
    run("check");
    run("choose_in");
    run("check_in");
    for (image = 0; image < IMAGES; image++) run("confirm");
    run_boot(BOOTSWAP_BOOTED);
    upload(3);
    run_boot(BOOTSWAP_BOOTED);
    run_boot(BOOTSWAP_TRIAL_AGAIN);
    run_boot(BOOTSWAP_REVERTED);
    image = 0;
    run("slot");
    run("state");
    run("describe");
    run("digest");
    for (size_t i = 0; i < sizeof rows / sizeof *rows; i++) printf("%-15s %6zu\n", rows[i].name, rows[i].most);
    return 0;
}
