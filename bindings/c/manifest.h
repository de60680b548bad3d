/*
 * Reads the JSON text of a manifest in memory of the caller, without a heap. Link
 * `libbootswap_manifest.a` beside manifest.c and `libbootswap.a`.
 *
 * manifest.c has two thread-local variables (`_Thread_local`). For a machine without these, compile
 * it with `-ffreestanding` or with `-DBOOTSWAP_NO_THREADS`.
 */
#ifndef BOOTSWAP_READ_MANIFEST_H
#define BOOTSWAP_READ_MANIFEST_H

#include "bootswap_manifest.h"

#ifdef __cplusplus
extern "C" {
#endif

/* Memory in bytes that is always enough for a manifest whose objects name no key twice, for a text
 * of this length. */
#define BOOTSWAP_MANIFEST_MEMORY(text_length) ((size_t)(text_length) + 12288)

/*
 * Reads a text of any length, for the device of a setup. `memory` may be used for anything before
 * and after the call, and overlaps nothing else that is passed. `text` and `memory` may each be null
 * if their length is 0.
 *
 * Several threads may call at the same time, each with `memory` and `manifest` of its own. If
 * manifest.c was compiled with one of the two options above, only one call may run at a time. A
 * signal handler may not call while its thread is in a call.
 *
 * Returns 0, and `manifest` is what `bootswap_journal_accept` takes. Or returns a
 * bootswap_manifest_fault, and `manifest` is unchanged: the lowest one that applies to the text, or
 * BOOTSWAP_NO_MEMORY if `memory` is too short for it.
 */
uint32_t bootswap_read_manifest(const struct bootswap_setup *setup, const char *text,
                                size_t text_length, uint8_t *memory, size_t memory_length,
                                struct bootswap_manifest *manifest);

#ifdef __cplusplus
}
#endif

#endif
