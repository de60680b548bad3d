/*
 * Names for the numbers of bootswap.h, as the program prints them. Each call returns a text that lasts, and "unknown" for any
 * number that the library never returns.
 */
#ifndef BOOTSWAP_NAMES_H
#define BOOTSWAP_NAMES_H

#include "bootswap.h"

/* Returns the name of what a call returns, a bootswap_status: "done", "booted", .. */
static inline const char *bootswap_status_name(uint32_t status) {
    switch (status) {
    case BOOTSWAP_DONE: return "done";
    case BOOTSWAP_BOOTED: return "booted";
    case BOOTSWAP_REVERTED: return "reverted";
    case BOOTSWAP_TRIAL_AGAIN: return "trial-again";
    case BOOTSWAP_REFUSED: return "refused";
    case BOOTSWAP_CUT: return "cut";
    case BOOTSWAP_NO_MAP: return "no-map";
    case BOOTSWAP_NO_TRIAL: return "no-trial";
    case BOOTSWAP_NO_FLASH: return "no-flash";
    case BOOTSWAP_NO_IMAGE: return "no-image";
    case BOOTSWAP_TOO_MANY: return "too-many";
    case BOOTSWAP_NO_LOG: return "no-log";
    case BOOTSWAP_NO_TABLE: return "no-table";
    case BOOTSWAP_NO_REPORT: return "no-report";
    case BOOTSWAP_INVALID_SET: return "invalid-set";
    case BOOTSWAP_WRONG: return "wrong";
    case BOOTSWAP_TOO_SMALL: return "too-small";
    case BOOTSWAP_BAD_IMAGE: return "bad-image";
    default: return "unknown";
    }
}

/* Returns the name of the reason why a call is refused, a bootswap_fault. */
static inline const char *bootswap_fault_name(uint32_t fault) {
    switch (fault) {
    case BOOTSWAP_NOT_BOOTED: return "NotBooted";
    case BOOTSWAP_ON_TRIAL: return "OnTrial";
    case BOOTSWAP_NOT_ON_TRIAL: return "NotOnTrial";
    case BOOTSWAP_NOT_PROVISIONED: return "NotProvisioned";
    case BOOTSWAP_RUNNING_DAMAGED: return "RunningDamaged";
    case BOOTSWAP_RUNNING_INVALID: return "InvalidSet";
    case BOOTSWAP_MANIFEST: return "Manifest";
    case BOOTSWAP_UPLOAD: return "Upload";
    default: return "unknown";
    }
}

/* Returns the name of the reason why a manifest is refused, a bootswap_manifest_fault. */
static inline const char *bootswap_manifest_fault_name(uint32_t fault) {
    switch (fault) {
    case BOOTSWAP_NOT_JSON: return "NotJson";
    case BOOTSWAP_BAD_KEY: return "BadKey";
    case BOOTSWAP_BAD_VALUE: return "BadValue";
    case BOOTSWAP_WRONG_VENDOR: return "WrongVendor";
    case BOOTSWAP_WRONG_CLASS: return "WrongClass";
    case BOOTSWAP_NO_COMPONENT: return "NoComponent";
    case BOOTSWAP_REPEATED_COMPONENT: return "RepeatedComponent";
    case BOOTSWAP_NO_MEMORY: return "NoMemory";
    default: return "unknown";
    }
}

/* Returns the name of the reason why an upload is refused, a bootswap_upload_fault. */
static inline const char *bootswap_upload_fault_name(uint32_t fault) {
    switch (fault) {
    case BOOTSWAP_OLD_SEQUENCE: return "OldSequence";
    case BOOTSWAP_TOO_BIG: return "TooBig";
    case BOOTSWAP_NO_SESSION: return "NoSession";
    case BOOTSWAP_TOO_MUCH: return "TooMuch";
    case BOOTSWAP_SIZE_WRONG: return "SizeWrong";
    case BOOTSWAP_DIGEST_WRONG: return "DigestWrong";
    case BOOTSWAP_NOT_AN_IMAGE: return "NotAnImage";
    case BOOTSWAP_WRONG_PRECURSOR: return "WrongPrecursor";
    case BOOTSWAP_NOTHING_REQUESTED: return "NothingRequested";
    default: return "unknown";
    }
}

/* Returns the name of the first check of an image that fails, 1 to 15. */
static inline const char *bootswap_check_name(uint32_t check) {
    static const char *const names[] = {
        "Short",         "BadMagic",  "BadHeaderSize", "UnsupportedFlags",    "Truncated",
        "BadTlvMagic",   "BadTlvSize", "NoDigest",     "TwoDigests",          "BadDigest",
        "BadDependency", "TooManyDependencies",        "TrailingBytes",       "BadCounter",
        "TooManyGroups",
    };
    return check >= 1 && check <= sizeof names / sizeof *names ? names[check - 1] : "unknown";
}

/* Returns the name of the reason of a bootswap_refusal, 1 to 6, as a report has it. */
static inline const char *bootswap_reason_name(uint32_t reason) {
    static const char *const names[] = {"damaged", "older", "counter", "no-such-image", "needs", "needs-one"};
    return reason >= 1 && reason <= sizeof names / sizeof *names ? names[reason - 1] : "unknown";
}

#endif
