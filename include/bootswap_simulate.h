/*
 * Simulates a device for tests, simulators and update servers: its flash is bytes in memory of the caller, and power
 * may fail in any write of a call.
 *
 * The calls of a device are those of bootswap.h. They write to the flash and have no journal. Each is one step of the
 * same machine, from the device in the caller's bytes before the call to the one in them after it. What bootswap.h says
 * of pointers, of the saved state and of each result holds here too.
 *
 * A call takes a list of cuts, and returns BOOTSWAP_CUT exactly if one of its writes is on the list. After the first
 * such write the flash has no power until the call ends. The device isn't booted then, and the next boot continues.
 */
#ifndef BOOTSWAP_SIMULATE_H
#define BOOTSWAP_SIMULATE_H

#include "bootswap.h"

#ifdef __cplusplus
extern "C" {
#endif

/* The most cuts of a call. */
#define BOOTSWAP_MAX_CUTS 16

/* A write that is to be cut in a call. A write is a program or an erase. */
struct bootswap_cut {
    uint64_t write;          /* its number in the call, counted from 1 */
    uint32_t residue;        /* what it leaves: 0 the old bytes, 1 the new bytes, 2 the pattern */
    uint32_t pattern_length; /* the length of the pattern in bytes, 0 to 8 */
    uint8_t pattern[8];      /* repeated over the range from its first byte on */
};

/*
 * Provisions the bytes of a flash: the images at the front of the primary slots run. The flash begins with the primary
 * slots, image by image, each followed by one sector for its trailer. Slots and scratch are unchanged. Returns
 * BOOTSWAP_DONE; BOOTSWAP_REFUSED with BOOTSWAP_RUNNING_DAMAGED or BOOTSWAP_RUNNING_INVALID: then nothing changed; or
 * BOOTSWAP_CUT: then it may be called again.
 */
uint32_t bootswap_simulate_provision(const struct bootswap_setup *setup, uint8_t *flash, size_t flash_length,
                                     const struct bootswap_cut *cuts, size_t cuts_count,
                                     struct bootswap_result *result);

/*
 * Boots. Returns BOOTSWAP_BOOTED, BOOTSWAP_REVERTED or BOOTSWAP_TRIAL_AGAIN, and the device is booted;
 * BOOTSWAP_REFUSED; or BOOTSWAP_CUT: then the next boot continues. A boot that decides writes the texts of its table
 * and its report to the front of the two buffers, without a 0 after them. A text is left out only if it is longer than
 * its buffer. BOOTSWAP_REVERTED and BOOTSWAP_TRIAL_AGAIN have no texts.
 */
uint32_t bootswap_simulate_boot(const struct bootswap_setup *setup, uint8_t *flash, size_t flash_length,
                                struct bootswap_saved_state *saved, const struct bootswap_cut *cuts, size_t cuts_count,
                                char *table, size_t table_capacity, char *report, size_t report_capacity,
                                struct bootswap_result *result);

/*
 * Accepts a manifest: opens an upload for each image it lists, and cancels pending requests for those images. Returns
 * BOOTSWAP_DONE, BOOTSWAP_REFUSED or BOOTSWAP_CUT. A manifest with two components for the same image is refused.
 */
uint32_t bootswap_simulate_accept(const struct bootswap_setup *setup, uint8_t *flash, size_t flash_length,
                                  struct bootswap_saved_state *saved, const struct bootswap_cut *cuts,
                                  size_t cuts_count, const struct bootswap_manifest *manifest,
                                  struct bootswap_result *result);

/*
 * Adds bytes to the upload of an image. Returns as bootswap_simulate_accept.
 *
 * This call alone doesn't check that the saved uploads match the flash. Before it writes, it checks the upload of its
 * image: the number of received bytes, the trailer of the slot, and that the range to write is erased. If one of these
 * doesn't match, it returns BOOTSWAP_REFUSED with BOOTSWAP_NO_SESSION, and nothing changed.
 *
 * If the saved uploads don't match the flash, the call may write to erased bytes of the image's secondary slot. On a
 * flash at rest without a trial the running images and the requests stay the same even then. Nothing is requested of
 * such uploads: each other call that takes a saved state checks all of them, and finds a device that isn't booted.
 */
uint32_t bootswap_simulate_piece(const struct bootswap_setup *setup, uint8_t *flash, size_t flash_length,
                                 struct bootswap_saved_state *saved, const struct bootswap_cut *cuts, size_t cuts_count,
                                 uint8_t image, const uint8_t *bytes, size_t bytes_length,
                                 struct bootswap_result *result);

/*
 * Finishes the upload of an image. The image is requested if the upload is complete, has the manifest's digest, and is
 * an intact image. Returns as bootswap_simulate_accept.
 */
uint32_t bootswap_simulate_finish(const struct bootswap_setup *setup, uint8_t *flash, size_t flash_length,
                                  struct bootswap_saved_state *saved, const struct bootswap_cut *cuts,
                                  size_t cuts_count, uint8_t image, struct bootswap_result *result);

/* Withdraws the request of an image. Returns as bootswap_simulate_accept. */
uint32_t bootswap_simulate_withdraw(const struct bootswap_setup *setup, uint8_t *flash, size_t flash_length,
                                    struct bootswap_saved_state *saved, const struct bootswap_cut *cuts,
                                    size_t cuts_count, uint8_t image, struct bootswap_result *result);

/* Confirms an image of the set on trial. Returns as bootswap_simulate_accept. */
uint32_t bootswap_simulate_confirm(const struct bootswap_setup *setup, uint8_t *flash, size_t flash_length,
                                   struct bootswap_saved_state *saved, const struct bootswap_cut *cuts,
                                   size_t cuts_count, uint8_t image, struct bootswap_result *result);

#ifdef __cplusplus
}
#else
_Static_assert(sizeof(struct bootswap_cut) == 24, "a cut");
#endif

#endif
