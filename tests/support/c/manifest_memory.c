/* Calls bootswap_read_manifest over a stand-in for bootswap_parse_manifest that allocates: without any memory, and in two
   threads at the same time.

       manifest_memory

   The status is 1 if a block isn't in the memory of its caller, or isn't where no other block is. */
#define _POSIX_C_SOURCE 200809L

#include <pthread.h>
#include <stdbool.h>
#include <stdio.h>
#include <string.h>

#include "manifest.h"

enum { CAPACITY = 4096, SIZE = 100, BLOCKS = 20, NO_TEXT = 1 };

struct block {
    bool is_some;
    void *bytes;
};

struct block rattle_alloc(size_t size, size_t alignment);

/* The memory of each thread. The text of a call is the number of its thread. */
static uint8_t memories[2][CAPACITY];
static pthread_barrier_t both;

/* Whether a block is in the memory of a thread, and all of its bytes are still free. */
static bool is_own(struct block block, size_t thread) {
    uint8_t *bytes = block.bytes, free[SIZE] = {0};
    return block.is_some && bytes >= memories[thread] && bytes + SIZE <= memories[thread] + CAPACITY &&
           memcmp(bytes, free, SIZE) == 0;
}

/* The stand-in. The calls of both threads are under way at each of its allocations. Returns the number of bad blocks. */
uint32_t bootswap_parse_manifest(const struct bootswap_identity *identity, const char *text, size_t text_length,
                                 struct bootswap_manifest *manifest) {
    (void)identity, (void)manifest;
    if (text_length == 0) {
        return rattle_alloc(1, 1).is_some ? 0 : NO_TEXT;
    }
    uint32_t bad = 0;
    for (int i = 0; i < BLOCKS; i++) {
        pthread_barrier_wait(&both);
        struct block block = rattle_alloc(SIZE, 1);
        pthread_barrier_wait(&both);
        if (is_own(block, (size_t)text[0])) {
            memset(block.bytes, 1, SIZE);
        } else {
            bad++;
        }
    }
    return bad;
}

static const struct bootswap_setup setup = {.sector_size = 512, .images = 1, .sectors = {2}, .trial_boots = 1};
static uint32_t bad[2];

static void *call(void *number) {
    char thread = *(const char *)number;
    struct bootswap_manifest manifest;
    bad[(size_t)thread] = bootswap_read_manifest(&setup, &thread, 1, memories[(size_t)thread], CAPACITY, &manifest);
    return NULL;
}

int main(void) {
    static const char numbers[2] = {0, 1};
    struct bootswap_manifest manifest;
    pthread_t thread;
    if (bootswap_read_manifest(&setup, NULL, 0, NULL, 0, &manifest) != NO_TEXT) {
        printf("null with a length of 0 is memory\n");
        return 1;
    }
    pthread_barrier_init(&both, NULL, 2);
    if (pthread_create(&thread, NULL, call, (void *)&numbers[1]) != 0) return 2;
    call((void *)&numbers[0]);
    pthread_join(thread, NULL);
    printf("%u and %u bad blocks\n", (unsigned)bad[0], (unsigned)bad[1]);
    return bad[0] > 0 || bad[1] > 0;
}
