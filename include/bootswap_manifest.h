/*
 * Reads the JSON text of a manifest: what `bootswap make-manifest` writes. The call is in a library of its own,
 * `libbootswap_manifest.a`, because it allocates, and no call of bootswap.h does. bindings/c/manifest.c lets it allocate in
 * memory of the caller.
 */
#ifndef BOOTSWAP_MANIFEST_H
#define BOOTSWAP_MANIFEST_H

#include "bootswap.h"

#ifdef __cplusplus
extern "C" {
#endif

/* The identity of a device. A manifest must name its vendor, its class, and only its images. */
struct bootswap_identity {
    uint8_t vendor[16];   /* the vendor: a UUID (RFC 9562), the bytes in the order of its text */
    uint8_t class_id[16]; /* the class of devices, a UUID */
    uint8_t images;       /* the number of images */
};

/*
 * Reads a text of any length. Returns 0, and `manifest` is the manifest of the text, all zero after the last component.
 * Or returns a bootswap_manifest_fault, and `manifest` is unchanged: the lowest one that applies to the text, or
 * BOOTSWAP_NO_MEMORY if an allocation failed. The text overlaps neither the identity nor the manifest.
 *
 * The call has no state of its own. Several threads may call at the same time if the three functions below may. They are
 * called in the thread of the call.
 *
 * The program defines how the call allocates. bindings/c/manifest.c does it for `bootswap_read_manifest`, which most
 * programs call instead. A program with a heap of its own defines these three:
 *
 *     struct { bool is_some; void *bytes; }
 *     rattle_alloc(size_t size, size_t alignment);
 *     struct { bool is_some; void *bytes; }
 *     rattle_realloc(void *old, size_t kept, size_t size, size_t alignment);
 *     void rattle_dealloc(void *bytes);
 *
 * They have the meaning of `malloc`, `realloc` and `free`, with these differences. An alignment is 1, 2, 4, 8 or 16. A size
 * of 0 means `alignment` bytes. `rattle_realloc` copies the first `kept` bytes, and if it fails, the old block stays.
 * `bytes` is never null: if `is_some` is false, it is any other address.
 */
uint32_t bootswap_parse_manifest(const struct bootswap_identity *identity, const char *text, size_t text_length,
                                 struct bootswap_manifest *manifest);

#ifdef __cplusplus
}
#endif

#endif
