/* Reads the JSON text of a manifest in memory of the caller. See manifest.h. */
#include "manifest.h"

#include <stdbool.h>
#include <string.h>

/* A block of memory. If there is none, `bytes` points to nothing that may be used. */
struct block {
    bool is_some;
    void *bytes;
};

/* How the library allocates (bootswap_manifest.h). */
struct block rattle_alloc(size_t size, size_t alignment);
struct block rattle_realloc(void *old, size_t kept, size_t size, size_t alignment);
void rattle_dealloc(void *bytes);

/* No alignment is larger, and each divides it. */
enum { UNIT = 16 };

/* The memory of a call is in variables of its thread, since rattle_alloc isn't passed it. */
#if __STDC_HOSTED__ && !defined BOOTSWAP_NO_THREADS
#define PER_THREAD _Thread_local
#else
#define PER_THREAD
#endif

/* What the running call of this thread has left of its memory. The first byte is aligned to UNIT.
 * No call is running, or nothing is left, if the length is 0. */
static PER_THREAD uint8_t *rest;
static PER_THREAD size_t rest_length;

/* Begins a call in this memory. */
static void borrow(uint8_t *memory, size_t length) {
    size_t skipped = (UNIT - (uintptr_t)memory % UNIT) % UNIT;
    rest_length = skipped < length ? length - skipped : 0;
    rest = rest_length > 0 ? memory + skipped : NULL;
}

/* Takes a block off the front of the memory, at least UNIT bytes. */
struct block rattle_alloc(size_t size, size_t alignment) {
    static uint8_t nothing; /* never read or written: an address that isn't null */
    (void)alignment;
    size_t taken = size ? (size + UNIT - 1) / UNIT * UNIT : UNIT;
    if (taken > rest_length) {
        return (struct block){false, &nothing};
    }
    struct block block = {true, rest};
    rest += taken;
    rest_length -= taken;
    return block;
}

struct block rattle_realloc(void *old, size_t kept, size_t size, size_t alignment) {
    struct block block = rattle_alloc(size, alignment);
    if (block.is_some) {
        memcpy(block.bytes, old, kept);
    }
    return block;
}

/* The memory is the caller's again when the call ends. Until then nothing is used twice. */
void rattle_dealloc(void *bytes) { (void)bytes; }

uint32_t bootswap_read_manifest(const struct bootswap_setup *setup, const char *text,
                                size_t text_length, uint8_t *memory, size_t memory_length,
                                struct bootswap_manifest *manifest) {
    struct bootswap_identity identity;
    memcpy(identity.vendor, setup->vendor, sizeof identity.vendor);
    memcpy(identity.class_id, setup->class_id, sizeof identity.class_id);
    identity.images = setup->images < UINT8_MAX ? (uint8_t)setup->images : UINT8_MAX;

    borrow(memory, memory_length);
    uint32_t number = bootswap_parse_manifest(&identity, text, text_length, manifest);
    rest_length = 0;
    return number;
}
