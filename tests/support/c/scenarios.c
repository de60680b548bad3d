/* Plays random scenarios of devices, and prints after each call its number, and a hash of everything that the call may write.

       scenarios FIRST LAST        the seeds

   Two builds of the library are the same if they print the same: the scenarios choose their calls from what these left. Writes
   are cut, journals are too short, saved states are lost or damaged, and so are bytes of the flash. Each call of both headers is
   made.

   BARE is defined for a machine without an operating system: bare/ has what is its own then. */
#include <stdint.h>
#include <string.h>

#include "bootswap_simulate.h"

enum { MOST_FLASH = 1 << 19, MOST_FILE = 16384, MOST_JOURNAL = 20000, CALLS = 40, FIRST_HASH = 5381 };

void write_text(const char *text);

static uint64_t random_state;

static uint32_t any(uint32_t below) {
    random_state ^= random_state << 13;
    random_state ^= random_state >> 7;
    random_state ^= random_state << 17;
    return (uint32_t)((random_state >> 11) % below);
}

static struct bootswap_setup setup;
static uint8_t flash[MOST_FLASH], journal[MOST_JOURNAL];
static size_t flash_length, capacity;
static struct bootswap_saved_state saved;
static struct bootswap_result result;
static struct bootswap_cut cuts[BOOTSWAP_MAX_CUTS];
static size_t cuts_count;
static char table[BOOTSWAP_MAX_TABLE_LENGTH], report[BOOTSWAP_MAX_REPORT_LENGTH], own_report[BOOTSWAP_MAX_REPORT_LENGTH];
static uint8_t files[BOOTSWAP_MAX_IMAGES][MOST_FILE], body[MOST_FILE];
static uint32_t lengths[BOOTSWAP_MAX_IMAGES], sent[BOOTSWAP_MAX_IMAGES];
static struct bootswap_state state;
static struct bootswap_description description;
static struct bootswap_manifest manifest;
static struct bootswap_workspace workspace;

#define CLEAR(it) memset(&it, 0, sizeof it)

/* Four bytes at a time: each seed hashes some megabytes, and emulators are slow. */
static uint64_t hash(uint64_t from, const void *bytes, size_t length) {
    const uint8_t *at = bytes;
    for (; length >= 4; length -= 4, at += 4) {
        uint32_t word = 0;
        memcpy(&word, at, 4);
        from = (from ^ word) * 0x100000001b3u;
        from ^= from >> 29;
    }
    while (length-- > 0) from = (from ^ *at++) * 0x100000001b3u;
    return from;
}

static void write_number_after(const char *text, uint64_t number, uint32_t base) {
    char digits[21], *at = digits + 20;
    *at = 0;
    do {
        *--at = "0123456789abcdef"[number % base];
        number /= base;
    } while (number != 0);
    write_text(text);
    write_text(at);
}

static void print(const char *call, uint32_t number, uint64_t length, uint64_t hash_of_call) {
    write_text(call);
    write_number_after(" ", number, 10);
    write_number_after(" ", length, 10);
    write_number_after(" ", hash_of_call, 16);
    write_text("\n");
}

/* Prints a call of the device, and all that it may write. */
static void print_call(const char *call, uint32_t number) {
    uint64_t all = hash(FIRST_HASH, flash, flash_length);
    all = hash(all, &saved, sizeof saved);
    all = hash(all, &result, sizeof result);
    all = hash(all, journal, sizeof journal);
    all = hash(all, table, sizeof table);
    all = hash(all, report, sizeof report);
    print(call, number, result.writes, all);
}

/* Performs the writes of a journal, up to a write that power may cut. */
static void perform(void) {
    size_t at = 0;
    uint32_t left = any(4) != 0 ? UINT32_MAX : any(30);
    if (result.journal_length > sizeof journal) {
        write_text("a journal is too long\n");
        return;
    }
    while (at < result.journal_length && left > 0) {
        uint32_t head[3];
        memcpy(head, journal + at, sizeof head);
        at += sizeof head;
        if (head[1] > flash_length || head[2] > flash_length - head[1]) {
            write_text("a write is outside of the flash\n");
            return;
        }
        if (head[0] != 0) {
            memset(flash + head[1], 0xff, head[2]);
        } else {
            memcpy(flash + head[1], journal + at, head[2]);
            at += head[2];
        }
        left--;
    }
    if (left == 0) bootswap_reset(&saved);
}

/* Chooses whether the next call has a journal, of which length, and which writes are cut otherwise. */
static uint32_t choose_kind(void) {
    uint64_t at = 0;
    capacity = any(3) != 0 ? sizeof journal : any(6000);
    cuts_count = any(3) != 0 ? any(3) : 0;
    for (size_t i = 0; i < cuts_count; i++) {
        at += 1 + any(any(2) != 0 ? 4 : 60);
        CLEAR(cuts[i]);
        cuts[i].write = at;
        cuts[i].residue = any(3);
        cuts[i].pattern_length = cuts[i].residue == 2 ? any(9) : 0;
        for (uint32_t k = 0; k < cuts[i].pattern_length; k++) cuts[i].pattern[k] = (uint8_t)any(256);
    }
    return any(2);
}

static void end_call(const char *call, uint32_t number, uint32_t has_journal) {
    print_call(call, number);
    if (has_journal) perform();
}

static uint32_t slot_at(uint32_t image) {
    uint32_t at = 0;
    for (uint32_t i = 0; i < image; i++) at += (setup.sectors[i] + 1) * setup.sector_size;
    return at;
}

/* Fills the dependencies of an image. */
static void choose_dependencies(struct bootswap_image_parts *parts) {
    parts->dependencies_count = any(4) == 0 ? any(3) : 0;
    for (uint32_t i = 0; i < parts->dependencies_count; i++) {
        parts->dependencies[i].image = any(setup.images);
        parts->dependencies[i].minimum.major = (uint8_t)any(3);
    }
    parts->groups_count = any(5) == 0 ? 1 : 0;
    parts->groups[0].count = parts->groups_count * (1 + any(BOOTSWAP_MAX_ALTERNATIVES));
    for (uint32_t i = 0; i < parts->groups[0].count; i++) {
        parts->groups[0].alternatives[i].image = any(setup.images);
        parts->groups[0].alternatives[i].minimum.minor = (uint8_t)any(3);
    }
}

/* Makes a file for an image that fits its slot. */
static void make_file(uint32_t image) {
    struct bootswap_image_parts parts;
    uint64_t length = 0;
    uint32_t most = setup.sectors[image] * setup.sector_size;
    CLEAR(parts);
    most = most > MOST_FILE ? MOST_FILE : most;
    parts.header_size = (uint16_t)(32 + 4 * any(8));
    parts.version.major = (uint8_t)any(4);
    parts.version.minor = (uint8_t)any(3);
    parts.version.build = any(100000);
    parts.has_counter = (uint8_t)any(2);
    parts.counter = any(5);
    choose_dependencies(&parts);
    uint32_t size = any(most > 500 ? most - 200 : 100);
    for (uint32_t i = 0; i < size; i++) body[i] = (uint8_t)any(256);
    CLEAR(files[image]);
    uint32_t number = bootswap_make_image(&parts, body, size, files[image], any(20) != 0 ? MOST_FILE : any(MOST_FILE), &length);
    lengths[image] = number == BOOTSWAP_DONE ? (uint32_t)length : 0;
    print("make_image", number, length, hash(FIRST_HASH, files[image], MOST_FILE));
}

static void describe(uint32_t image) {
    uint32_t length = any(10) != 0 ? lengths[image] : any(MOST_FILE);
    uint32_t number = bootswap_describe(files[image], length, &description);
    print("describe", number, description.length, hash(FIRST_HASH, &description, sizeof description));
}

static void make_manifest(void) {
    CLEAR(manifest);
    bootswap_state(&setup, flash, flash_length, &state);
    manifest.sequence = state.sequence + any(3) - (any(20) == 0);
    uint32_t chosen = 1 + any((1u << setup.images) - 1);
    for (uint32_t image = 0; image < setup.images; image++) {
        if ((chosen >> image & 1) == 0) continue;
        struct bootswap_component *it = &manifest.components[manifest.count++];
        struct bootswap_sha256 digest;
        make_file(image);
        sent[image] = 0;
        bootswap_digest(files[image], lengths[image], &digest);
        it->image = (uint8_t)image;
        it->size = lengths[image];
        it->is_permanent = (uint8_t)any(2);
        memcpy(it->digest, digest.bytes, sizeof it->digest);
        if (any(40) == 0) it->digest[3] ^= 1;
        if (any(10) == 0) {
            it->has_precursor = 1;
            bootswap_slot(&setup, flash, flash_length, (uint8_t)image, 0, &description);
            memcpy(it->precursor, description.digest, sizeof it->precursor);
            it->precursor[any(2) != 0 ? 0 : 31] ^= (uint8_t)any(2);
        }
    }
}

static void provision(void) {
    uint32_t has_journal = choose_kind();
    uint32_t number = has_journal ? bootswap_journal_provision(&setup, flash, flash_length, journal, capacity, &result)
                                  : bootswap_simulate_provision(&setup, flash, flash_length, cuts, cuts_count, &result);
    end_call("provision", number, has_journal);
}

/* Chooses and checks again with the texts of a boot, without a workspace and with one. */
static void check_texts(void) {
    uint64_t length = 0, line = 0;
    size_t own_capacity = any(10) != 0 ? sizeof own_report : any(200), table_length = result.table_length;
    if (any(10) == 0) table[any(result.table_length)] ^= 1;
    if (any(10) == 0) table_length = any(result.table_length);
    CLEAR(own_report);
    uint32_t number = bootswap_choose(table, table_length, own_report, own_capacity, &length);
    print("choose", number, length, hash(FIRST_HASH, own_report, sizeof own_report));
    number = bootswap_choose_in(&workspace, table, table_length, own_report, own_capacity, &length);
    print("choose in a workspace", number, length, hash(FIRST_HASH, own_report, sizeof own_report));
    if (any(4) == 0 && result.report_length > 0) report[any(result.report_length)] ^= 1;
    number = bootswap_check(table, table_length, report, result.report_length, &line);
    print("check", number, line, FIRST_HASH);
    number = bootswap_check_in(&workspace, table, table_length, report, result.report_length, &line);
    print("check in a workspace", number, line, FIRST_HASH);
}

static uint32_t boot(void) {
    uint32_t kind = choose_kind() + any(2), number;
    size_t table_capacity = any(10) != 0 ? sizeof table : any(600), report_capacity = any(10) != 0 ? sizeof report : any(100);
    if (kind == 0) {
        number = bootswap_simulate_boot(&setup, flash, flash_length, &saved, cuts, cuts_count, table, table_capacity, report,
                                        report_capacity, &result);
    } else if (kind == 1) {
        number = bootswap_journal_boot(&setup, flash, flash_length, &saved, journal, capacity, &result);
    } else {
        number = bootswap_journal_boot_with_texts(&setup, flash, flash_length, &saved, journal, capacity, table, table_capacity,
                                                  report, report_capacity, &result);
    }
    end_call(kind == 0 ? "boot" : kind == 1 ? "boot in a journal" : "boot with texts", number, kind);
    if (number == BOOTSWAP_BOOTED && result.table_length > 0 && result.report_length > 0) check_texts();
    return number;
}

/* Makes a call of a device, in a journal or with cuts. */
#define CALL(name, ...) \
    (has_journal ? bootswap_journal_##name(&setup, flash, flash_length, &saved, journal, capacity, __VA_ARGS__, &result) \
                 : bootswap_simulate_##name(&setup, flash, flash_length, &saved, cuts, cuts_count, __VA_ARGS__, &result))

static void accept(void) {
    uint32_t has_journal = choose_kind();
    make_manifest();
    if (any(20) == 0) manifest.count = any(12);
    end_call("accept", CALL(accept, &manifest), has_journal);
}

/* Uploads pieces of the file of an image, up to its end or a refusal. */
static void upload(uint8_t image) {
    uint32_t number = BOOTSWAP_DONE;
    for (uint32_t pieces = 0; number == BOOTSWAP_DONE && pieces < 12 && sent[image] < lengths[image]; pieces++) {
        uint32_t has_journal = choose_kind(), left = lengths[image] - sent[image], length = any(4) != 0 ? left : any(600);
        length = length > left ? left : length;
        if (any(8) != 0) capacity = sizeof journal;
        if (any(4) != 0) cuts_count = 0;
        number = CALL(piece, image, files[image] + sent[image], length);
        sent[image] += length;
        end_call("piece", number, has_journal);
    }
}

#define IMAGE_CALL(name) \
    static void name(uint8_t image) { \
        uint32_t has_journal = choose_kind(); \
        end_call(#name, CALL(name, image), has_journal); \
    }

IMAGE_CALL(finish)
IMAGE_CALL(withdraw)
IMAGE_CALL(confirm)

static void look(uint8_t image) {
    uint32_t number = bootswap_state(&setup, flash, flash_length, &state);
    print("state", number, state.kind, hash(FIRST_HASH, &state, sizeof state));
    number = bootswap_slot(&setup, flash, flash_length, image, (uint8_t)any(3), &description);
    print("slot", number, description.length, hash(FIRST_HASH, &description, sizeof description));
}

/* Damages the flash, the saved state or the setup. */
static void damage(void) {
    uint32_t what = any(4);
    if (what == 0) flash[any((uint32_t)flash_length)] ^= (uint8_t)(1 << any(8));
    if (what == 1) ((uint8_t *)&saved)[any(sizeof saved)] ^= 1;
    if (what == 2) bootswap_reset(&saved);
    if (what == 3) {
        uint32_t old = setup.sector_size, old_boots = setup.trial_boots;
        setup.sector_size = any(3) != 0 ? old : any(5000);
        setup.trial_boots = any(10);
        look(0);
        boot();
        setup.sector_size = old;
        setup.trial_boots = old_boots;
    }
}

/* Boots, uploads a set, boots until it is taken or refused, and may confirm it. */
static void upgrade(void) {
    boot();
    accept();
    for (uint32_t i = 0; i < manifest.count && i < BOOTSWAP_MAX_IMAGES; i++) {
        uint8_t image = manifest.components[i].image;
        upload(image);
        finish(image);
    }
    for (uint32_t attempts = 0; boot() == BOOTSWAP_CUT && attempts < 40; attempts++) {
    }
    for (uint8_t image = 0; any(2) != 0 && image < setup.images; image++) confirm(image);
}

static void play_step(void) {
    uint8_t image = (uint8_t)any(setup.images + (any(30) == 0));
    uint32_t what = any(24);
    if (what < 3) upgrade();
    if (what >= 3 && what < 6) accept();
    if (what >= 6 && what < 11 && image < setup.images) {
        upload(image);
        finish(image);
    }
    if (what == 11) withdraw(image);
    if (what >= 12 && what < 15) confirm(image);
    if (what == 15) finish(image);
    if (what >= 16 && what < 22) boot();
    if (what == 22 && image < setup.images) describe(image);
    if (what == 23 && any(2) != 0) damage();
    if (any(6) == 0) look(image);
}

/* Makes a setup, and a flash whose primary slots hold images. Returns whether it fits the memory. */
static uint32_t start(uint32_t seed) {
    static const uint32_t sizes[] = {512, 512, 1024, 4096};
    random_state = 0x9e3779b97f4a7c15u * ((uint64_t)seed + 1);
    CLEAR(setup), CLEAR(result), CLEAR(state), CLEAR(description), CLEAR(manifest);
    CLEAR(journal), CLEAR(table), CLEAR(report), CLEAR(lengths), CLEAR(sent);
    bootswap_reset(&saved);
    setup.sector_size = sizes[any(4)];
    setup.images = 1 + any(any(3) != 0 ? 3 : BOOTSWAP_MAX_IMAGES);
    setup.trial_boots = 1 + any(3);
    for (uint32_t i = 0; i < setup.images; i++) setup.sectors[i] = 1 + any(4);
    flash_length = 2 * (size_t)slot_at(setup.images) + (size_t)4 * setup.sector_size;
    return flash_length <= MOST_FLASH;
}

static void play(uint32_t seed) {
    if (!start(seed)) return;
    print("scenario", seed, setup.images, setup.sector_size);
    memset(flash, 0xff, sizeof flash);
    for (uint32_t image = 0; image < setup.images; image++) {
        make_file(image);
        memcpy(flash + slot_at(image), files[image], lengths[image]);
    }
    provision();
    for (uint32_t i = 0; i < CALLS; i++) play_step();
}

#ifdef BARE
int main(void) {
    for (uint32_t seed = FIRST; seed <= LAST; seed++) play(seed);
    return 0;
}
#else
#include <stdio.h>
#include <stdlib.h>

void write_text(const char *text) { fputs(text, stdout); }

int main(int count, char **words) {
    if (count != 3) return 2;
    for (uint32_t seed = (uint32_t)atoi(words[1]); seed <= (uint32_t)atoi(words[2]); seed++) play(seed);
    return 0;
}
#endif
