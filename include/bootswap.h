/*
 * bootswap for C: a device with its own flash. The flash is memory that a call only reads: a part that is mapped into
 * memory, or a copy of one. A call records its writes in a journal, and its caller makes them on the part.
 * `bindings/c/driver.c` does that over a driver of yours, and `docs/PORTING.md` says how. bootswap_simulate.h has the
 * same calls for simulators: they write to memory.
 *
 * Each call of a device is one step of a machine that knows whole images only, from the device of the flash before the
 * call to that of the flash after its writes. This is proved for any contents. Only bootswap_journal_piece needs saved
 * uploads that match the flash. The caller keeps the state of a device between two calls in a `struct
 * bootswap_saved_state`. If it isn't a valid state, or its uploads don't match the flash, the device isn't booted and
 * has no open upload. No call allocates, and each returns.
 *
 * The caller guarantees this: a pointer with a length or a capacity points to that number of bytes or rows, and may be
 * null if the number is 0; every other pointer points to a complete struct or number, and isn't null; memory that a
 * call writes overlaps nothing else that is passed.
 *
 * Each call except bootswap_journal_piece reads the slots of the open uploads and checks that the uploads match the
 * flash. A piece reads only the range of its slot that it writes, the slot's trailer and the log.
 *
 * The calls named `bootswap_journal_` have a journal. The flash is only read: a write is recorded in the journal, and
 * the rest of the call reads what it leaves. A write takes 12 bytes of the journal: three numbers of 4 bytes, the
 * lowest byte first. A program also takes its bytes.
 *
 *     0  the kind: 0 a program, 1 an erase
 *     4  the address in bytes
 *     8  the length of the range in bytes, of an erase that of a sector
 *    12  only of a program: its bytes
 *
 * The writes follow each other from the first byte of the journal on, with nothing between them. `journal_length` in
 * the result says where they end. The bytes of the journal after them stay as they were. Make these writes in this
 * order, on the part and on a copy if there is one, before the next call: each program is of whole units of 8 erased
 * bytes, and each erase is of one sector.
 *
 * If a write doesn't fit in the journal, it isn't recorded, and the call returns BOOTSWAP_CUT. The writes before it are
 * recorded. The device isn't booted then, and the next boot continues, as after a loss of power. A call with a journal
 * returns BOOTSWAP_CUT for no other reason.
 *
 * The library calls memcpy, memmove and memset. The archives for x86-64 and 64-bit ARM use vector registers and
 * unaligned accesses, which a bare machine has to allow. The library as one file of C uses neither.
 */
#ifndef BOOTSWAP_H
#define BOOTSWAP_H

#include <stddef.h>
#include <stdint.h>

#ifdef __cplusplus
extern "C" {
#endif

/* The version, as `bootswap --version` prints it. CHANGELOG.md says what a later one may change. */
#define BOOTSWAP_VERSION "2.0.0"

/* The most images of a device, dependencies and groups of an image, and alternatives of a group. */
#define BOOTSWAP_MAX_IMAGES 8
#define BOOTSWAP_MAX_DEPENDENCIES 16
#define BOOTSWAP_MAX_GROUPS 4
#define BOOTSWAP_MAX_ALTERNATIVES 4

/* What a call returns. bootswap_names.h has names for it, and for the numbers of reasons. */
enum bootswap_status {
    BOOTSWAP_DONE = 0,         /* done, the bytes are an intact image, or the report is right */
    BOOTSWAP_BOOTED = 1,       /* the device booted, and decided what runs */
    BOOTSWAP_REVERTED = 2,     /* it booted, and the old images of a set on trial run again */
    BOOTSWAP_TRIAL_AGAIN = 3,  /* it booted, and the set on trial is tried again */
    BOOTSWAP_REFUSED = 4,      /* the call is refused: `fault` says why */
    BOOTSWAP_CUT = 5,          /* power failed during the call, or its journal is too short: the device isn't booted */
    /* No call was made, and nothing changed: */
    BOOTSWAP_NO_MAP = 16,      /* no map has the setup's sizes */
    BOOTSWAP_NO_TRIAL = 17,    /* a trial has 1 to 7 boots */
    BOOTSWAP_NO_FLASH = 18,    /* the flash isn't whole sectors, is shorter than the map, or has 2^32 bytes or more */
    BOOTSWAP_NO_IMAGE = 19,    /* there is no such image, or no such side of it */
    BOOTSWAP_TOO_MANY = 20,    /* more than 8 components, or more than 16 cuts */
    BOOTSWAP_NO_LOG = 21,      /* the flash has no log of a device */
    /* For texts and images: */
    BOOTSWAP_NO_TABLE = 24,    /* the text is no table */
    BOOTSWAP_NO_REPORT = 25,   /* the text is no report */
    BOOTSWAP_INVALID_SET = 26, /* the running images of the table don't fit each other */
    BOOTSWAP_WRONG = 27,       /* the report isn't right for the table */
    BOOTSWAP_TOO_SMALL = 28,   /* the buffer is too small for the text or the image */
    BOOTSWAP_BAD_IMAGE = 29    /* no image has the values */
};

/* Why a call is refused: the number of the reason. */
enum bootswap_fault {
    BOOTSWAP_NOT_BOOTED = 1,      /* the device isn't booted */
    BOOTSWAP_ON_TRIAL = 2,        /* a set of images is on trial */
    BOOTSWAP_NOT_ON_TRIAL = 3,    /* the image isn't on trial */
    BOOTSWAP_NOT_PROVISIONED = 4, /* the flash has no log of a device */
    BOOTSWAP_RUNNING_DAMAGED = 5, /* the running image `detail` is damaged */
    BOOTSWAP_RUNNING_INVALID = 6, /* the running images don't fit each other */
    BOOTSWAP_MANIFEST = 9,        /* `detail` is a bootswap_manifest_fault */
    BOOTSWAP_UPLOAD = 10          /* `detail` is a bootswap_upload_fault */
};

/*
 * Why a manifest is refused. `detail` of BOOTSWAP_MANIFEST is 3, 6 or 7: bootswap_journal_accept reports 3 if there is
 * no component. bootswap_manifest.h reads texts, and returns any.
 */
enum bootswap_manifest_fault {
    BOOTSWAP_NOT_JSON = 1,           /* the bytes aren't the JSON text of a value */
    BOOTSWAP_BAD_KEY = 2,            /* a key is missing, or isn't known */
    BOOTSWAP_BAD_VALUE = 3,          /* a value that its key doesn't allow */
    BOOTSWAP_WRONG_VENDOR = 4,       /* the manifest is for devices of another vendor */
    BOOTSWAP_WRONG_CLASS = 5,        /* the manifest is for devices of another class */
    BOOTSWAP_NO_COMPONENT = 6,       /* a component is for an image that the device lacks */
    BOOTSWAP_REPEATED_COMPONENT = 7, /* the device has each image, and two components are for the same one */
    BOOTSWAP_NO_MEMORY = 8           /* the memory is too short for the text */
};

/* Why an upload is refused: `detail` of BOOTSWAP_UPLOAD. */
enum bootswap_upload_fault {
    BOOTSWAP_OLD_SEQUENCE = 1,     /* a manifest of a higher sequence number was accepted */
    BOOTSWAP_TOO_BIG = 2,          /* an image that is longer than its slot */
    BOOTSWAP_NO_SESSION = 3,       /* no upload of the image is open, or a piece finds that it doesn't match */
    BOOTSWAP_TOO_MUCH = 4,         /* more bytes than the manifest said: the upload is closed */
    BOOTSWAP_SIZE_WRONG = 5,       /* fewer bytes than the manifest said: the upload is closed */
    BOOTSWAP_DIGEST_WRONG = 6,     /* another digest than the manifest said: the upload is closed */
    BOOTSWAP_NOT_AN_IMAGE = 7,     /* no intact image, `check` is the first check that fails: the upload is closed */
    BOOTSWAP_WRONG_PRECURSOR = 8,  /* the running image isn't the one that the manifest names */
    BOOTSWAP_NOTHING_REQUESTED = 9 /* nothing is requested for the image */
};

/* How a device is set up. */
struct bootswap_setup {
    uint32_t sector_size; /* the length of a sector in bytes: a multiple of 64 from 512 to 131072 */
    uint32_t images;      /* the number of images, 1 to 8 */
    uint32_t sectors[BOOTSWAP_MAX_IMAGES]; /* the number of sectors of each slot of an image */
    uint32_t trial_boots; /* the number of boots of a trial, 1 to 7 */
    uint8_t vendor[16];   /* the vendor: a UUID (RFC 9562), the bytes in the order of its text */
    uint8_t class_id[16]; /* the class of devices, a UUID. Only bootswap_manifest.h compares these two with anything. */
};

/*
 * The state of a device between two calls. All zero is a device that isn't booted. If the caller keeps it and the flash
 * unchanged between two calls, its uploads match the flash at each call. A piece doesn't check that; every other call
 * does. A call whose setup and list of cuts are valid sets each byte that the device doesn't need to 0: the unused
 * ones, those after the held bytes, and each byte of an upload that isn't open.
 */
struct bootswap_saved_state {
    uint8_t is_booted; /* 1 if it is booted */
    uint8_t unused[3]; /* 0 */
    struct {
        uint32_t size;       /* the length of the file in bytes */
        uint32_t received;   /* the number of bytes that were received */
        uint8_t is_open;     /* 1 if the upload is open */
        uint8_t kind;        /* 1 for a test, 2 permanently */
        uint8_t held_length; /* the number of bytes that are held back, 0 to 7 */
        uint8_t unused;      /* 0 */
        uint8_t held[8];     /* the last bytes that were received, which don't fill a unit of 8 yet */
        uint8_t digest[32];  /* the SHA-256 that the file must have */
    } uploads[BOOTSWAP_MAX_IMAGES]; /* one for each image */
};

/* A version of an image, major.minor.revision+build (MCUboot's `struct image_version`). */
struct bootswap_version {
    uint8_t major, minor;
    uint16_t revision;
    uint32_t build;
};

/* A dependency: a needed image and its lowest version. */
struct bootswap_dependency {
    uint32_t image;
    struct bootswap_version minimum;
};

/* A request that is refused. */
struct bootswap_refusal {
    uint32_t image;                /* the image whose request is refused */
    uint32_t reason;               /* 1 damaged, 2 older, 3 counter, 4 no such image, 5 needs, 6 needs one of several */
    uint32_t count;                /* the number of `dependencies`: 1 for reasons 4 and 5, up to 4 for reason 6 */
    struct bootswap_dependency dependencies[BOOTSWAP_MAX_ALTERNATIVES]; /* what the image needs. For reason 4 only the
                                                                           number of the needed image counts. */
};

/* The result of a call. A field that doesn't apply to the returned number is 0. */
struct bootswap_result {
    uint64_t writes;                      /* the number of writes of the call. Exactly these change the old bytes into
                                             the new ones. If a simulated write is cut, it is the last one. */
    uint64_t journal_length;              /* the number of bytes of the journal that record these writes, from its first
                                             byte on. 0 for a simulated call. */
    uint32_t fault;                       /* refused: a bootswap_fault */
    uint32_t detail;                      /* refused: the number of the underlying error */
    uint32_t check;                       /* refused: the first check of an image that fails, 1 to 15 */
    uint32_t set;                         /* bit i for image i: the set that is taken, reverted, or tried again */
    uint32_t left;                        /* the number of boots that are left to a set that is tried again */
    uint32_t permanent;                   /* 1 if a set is taken permanently */
    uint32_t images;                      /* booted: the number of images */
    uint32_t refusals;                    /* booted: the number of refused requests */
    uint32_t table_length;                /* booted: the length of the table's text, 0 if its buffer was too short */
    uint32_t report_length;               /* booted: the same for the report */
    struct bootswap_version versions[BOOTSWAP_MAX_IMAGES]; /* booted: the running version of each image */
    struct bootswap_refusal refused[BOOTSWAP_MAX_IMAGES];  /* booted: the refusals, in the order of the report */
};

/* One image that may be uploaded. */
struct bootswap_component {
    uint32_t size;          /* the length of the file in bytes */
    uint8_t image;          /* the number of the image */
    uint8_t is_permanent;   /* 0: it is requested for a test; else permanently */
    uint8_t has_precursor;  /* not 0: the file is only for a device that runs `precursor` */
    uint8_t unused;
    uint8_t digest[32];     /* the SHA-256 of the file (bootswap_digest) */
    uint8_t precursor[32];  /* the digest of the image that has to run (bootswap_describe) */
};

/* A manifest: the images that may be uploaded. bootswap_manifest.h reads one from its JSON text. */
struct bootswap_manifest {
    uint32_t sequence; /* rises from manifest to manifest */
    uint32_t count;    /* the number of components, 1 to 8 */
    struct bootswap_component components[BOOTSWAP_MAX_IMAGES];
};

/* A group of alternatives: at least one of these dependencies has to be met. */
struct bootswap_group {
    uint32_t count; /* 1 to 4 */
    struct bootswap_dependency alternatives[BOOTSWAP_MAX_ALTERNATIVES];
};

/* The description of an image. */
struct bootswap_description {
    uint64_t length;                 /* in bytes, from the header to the end of the unprotected area */
    struct bootswap_version version; /* ih_ver */
    uint32_t counter;                /* the security counter, 0 if it has none */
    uint32_t flags;                  /* ih_flags */
    uint32_t dependencies_count;     /* 0 to 16 */
    uint32_t groups_count;           /* 0 to 4 */
    struct bootswap_dependency dependencies[BOOTSWAP_MAX_DEPENDENCIES]; /* in the order of its entries */
    struct bootswap_group groups[BOOTSWAP_MAX_GROUPS];
    uint8_t digest[32]; /* the SHA-256 of its header, body and protected area */
};

/* The values of an image that is made, besides its body. */
struct bootswap_image_parts {
    uint32_t load_address;           /* ih_load_addr */
    uint16_t header_size;            /* ih_hdr_size: the length of the header in bytes, with the zero bytes after its
                                        fields, at least 32 */
    uint8_t has_counter;             /* not 0: the image has the security counter `counter` */
    uint8_t unused;
    uint32_t flags;                  /* ih_flags: of 0x1, 0x10 and 0x100 */
    struct bootswap_version version; /* ih_ver */
    uint32_t counter;
    uint32_t dependencies_count;     /* 0 to 16 */
    uint32_t groups_count;           /* 0 to 4 */
    struct bootswap_dependency dependencies[BOOTSWAP_MAX_DEPENDENCIES]; /* in the order of its entries */
    struct bootswap_group groups[BOOTSWAP_MAX_GROUPS];
};

/* The state of a device that persists across its boots, as the log of its flash has it. */
struct bootswap_state {
    uint32_t kind;      /* 1 steady, 2 swap, 3 settle, 4 trial, 5 back, 6 back-settle: the phase of an upgrade */
    uint32_t set;       /* bit i for image i: the images of the upgrade */
    uint32_t permanent; /* 1 if the set stays without a trial */
    uint32_t left;      /* in a trial: the number of further boots that it lasts, 0 to 6 */
    uint32_t sequence;  /* the sequence number of the last accepted manifest. The next may have the same. */
    uint32_t floors[BOOTSWAP_MAX_IMAGES]; /* the lowest security counter that each image may have */
};

/* A SHA-256. */
struct bootswap_sha256 {
    uint8_t bytes[32];
};

/*
 * Memory for the table of a choice or of a check, which takes most of the stack of these calls. It may hold anything,
 * also nothing yet, and is the caller's again after the call. A variable of static storage serves any number of calls,
 * one at a time.
 */
struct bootswap_workspace {
    uint64_t words[913];
};

/* The most bytes of the text of a table, and of that of a report. Buffers of these sizes are always large enough. */
#define BOOTSWAP_MAX_TABLE_LENGTH 20480
#define BOOTSWAP_MAX_REPORT_LENGTH 2048

/*
 * The bytes of a journal with which a call is never cut. BOOTSWAP_JOURNAL_ACCEPT takes the number of components, and
 * the sum of the sectors of their slots, one slot for each component. BOOTSWAP_JOURNAL_PIECE takes the number of bytes
 * that are added.
 *
 * They are computed in `size_t`, without overflow for each setup that has a map. An argument is taken as a `size_t`: a
 * processor of 32 bits drops the high bits of a longer number.
 */
#define BOOTSWAP_JOURNAL_PROVISION(images) ((size_t)144 + (size_t)24 * (size_t)(images))
#define BOOTSWAP_JOURNAL_ACCEPT(components, sectors) \
    ((size_t)120 + (size_t)32 * (size_t)(components) + (size_t)12 * (size_t)(sectors))
#define BOOTSWAP_JOURNAL_PIECE(length) ((size_t)31 + (size_t)(length))
#define BOOTSWAP_JOURNAL_FINISH ((size_t)68)
#define BOOTSWAP_JOURNAL_WITHDRAW ((size_t)44)
#define BOOTSWAP_JOURNAL_CONFIRM ((size_t)20)

/*
 * The bytes of a journal for a boot. No journal is always enough. If a boot returns BOOTSWAP_CUT, the next one
 * continues.
 *
 * BOOTSWAP_JOURNAL_STEP is the longest step of a swap. It erases a sector, programs it by 256 bytes, and counts the
 * step. BOOTSWAP_JOURNAL_BOOT is a step, and what a boot writes after the last one: two records of the log, and the
 * trailers of the swapped images. If all of it is in the same boot, that reads the images only once more after the
 * swap. `images` is the number of images of the device.
 *
 * It is proved that each boot gets a step further if its journal has at least 856 bytes, and at least
 * BOOTSWAP_JOURNAL_STEP. BOOTSWAP_JOURNAL_BOOT is more than both. With a journal that is too short for a step, the same
 * step is interrupted each time. A boot takes no longer with a journal of 64 steps than with one of a single step, but
 * much longer with one of thousands.
 */
#define BOOTSWAP_JOURNAL_STEP(sector_size) \
    ((size_t)(sector_size) + (size_t)12 * (((size_t)(sector_size) + 255) / 256) + 32)
#define BOOTSWAP_JOURNAL_BOOT(images, sector_size) \
    (BOOTSWAP_JOURNAL_STEP(sector_size) + (size_t)240 + (size_t)92 * (size_t)(images))

/*
 * Provisions a flash: the images at the front of the primary slots run. The flash begins with the primary slots, image
 * by image, each followed by one sector for its trailer. Slots and scratch are unchanged. Returns BOOTSWAP_DONE;
 * BOOTSWAP_REFUSED with BOOTSWAP_RUNNING_DAMAGED or BOOTSWAP_RUNNING_INVALID: then nothing is written; or BOOTSWAP_CUT:
 * then it may be called again.
 */
uint32_t bootswap_journal_provision(const struct bootswap_setup *setup, const uint8_t *flash, size_t flash_length,
                                    uint8_t *journal, size_t journal_capacity, struct bootswap_result *result);

/*
 * Boots. Returns BOOTSWAP_BOOTED, BOOTSWAP_REVERTED or BOOTSWAP_TRIAL_AGAIN, and the device is booted;
 * BOOTSWAP_REFUSED; or BOOTSWAP_CUT: then make the writes, and boot again with an empty journal. A loader starts images
 * after BOOTSWAP_BOOTED and BOOTSWAP_TRIAL_AGAIN only. After BOOTSWAP_REVERTED it boots once more.
 */
uint32_t bootswap_journal_boot(const struct bootswap_setup *setup, const uint8_t *flash, size_t flash_length,
                               struct bootswap_saved_state *saved, uint8_t *journal, size_t journal_capacity,
                               struct bootswap_result *result);

/*
 * The same. A boot that decides also writes the texts of its table and its report to the front of the two buffers,
 * without a 0 after them. A text is left out only if it is longer than its buffer. BOOTSWAP_REVERTED and
 * BOOTSWAP_TRIAL_AGAIN have no texts.
 */
uint32_t bootswap_journal_boot_with_texts(const struct bootswap_setup *setup, const uint8_t *flash, size_t flash_length,
                                          struct bootswap_saved_state *saved, uint8_t *journal, size_t journal_capacity,
                                          char *table, size_t table_capacity, char *report, size_t report_capacity,
                                          struct bootswap_result *result);

/*
 * Accepts a manifest: opens an upload for each image it lists, and cancels pending requests for those images. Returns
 * BOOTSWAP_DONE, BOOTSWAP_REFUSED or BOOTSWAP_CUT. A manifest with two components for the same image is refused.
 */
uint32_t bootswap_journal_accept(const struct bootswap_setup *setup, const uint8_t *flash, size_t flash_length,
                                 struct bootswap_saved_state *saved, uint8_t *journal, size_t journal_capacity,
                                 const struct bootswap_manifest *manifest, struct bootswap_result *result);

/*
 * Adds bytes to the upload of an image. Returns as bootswap_journal_accept.
 *
 * This call alone doesn't check that the saved uploads match the flash. Before it writes, it checks the upload of its
 * image: the number of received bytes, the trailer of the slot, and that the range to write is erased. If one of these
 * doesn't match, it returns BOOTSWAP_REFUSED with BOOTSWAP_NO_SESSION, and nothing is written.
 *
 * If the saved uploads don't match the flash, the call may write to erased bytes of the image's secondary slot. On a
 * flash at rest without a trial the running images and the requests stay the same even then. Nothing is requested of
 * such uploads: each other call that takes a saved state checks all of them, and finds a device that isn't booted.
 */
uint32_t bootswap_journal_piece(const struct bootswap_setup *setup, const uint8_t *flash, size_t flash_length,
                                struct bootswap_saved_state *saved, uint8_t *journal, size_t journal_capacity,
                                uint8_t image, const uint8_t *bytes, size_t bytes_length,
                                struct bootswap_result *result);

/*
 * Finishes the upload of an image. The image is requested if the upload is complete, has the manifest's digest, and is
 * an intact image. Returns as bootswap_journal_accept.
 */
uint32_t bootswap_journal_finish(const struct bootswap_setup *setup, const uint8_t *flash, size_t flash_length,
                                 struct bootswap_saved_state *saved, uint8_t *journal, size_t journal_capacity,
                                 uint8_t image, struct bootswap_result *result);

/* Withdraws the request of an image. Returns as bootswap_journal_accept. */
uint32_t bootswap_journal_withdraw(const struct bootswap_setup *setup, const uint8_t *flash, size_t flash_length,
                                   struct bootswap_saved_state *saved, uint8_t *journal, size_t journal_capacity,
                                   uint8_t image, struct bootswap_result *result);

/* Confirms an image of the set on trial. Returns as bootswap_journal_accept. */
uint32_t bootswap_journal_confirm(const struct bootswap_setup *setup, const uint8_t *flash, size_t flash_length,
                                  struct bootswap_saved_state *saved, uint8_t *journal, size_t journal_capacity,
                                  uint8_t image, struct bootswap_result *result);

/* Resets the device: all uploads are closed, and it isn't booted. */
void bootswap_reset(struct bootswap_saved_state *saved);

/*
 * Describes the image at the front of a slot: side 0 is the primary slot, 1 the secondary one. Returns 0, the number of
 * the first check that fails, 1 to 15, or why there is no such slot.
 */
uint32_t bootswap_slot(const struct bootswap_setup *setup, const uint8_t *flash, size_t flash_length, uint8_t image,
                       uint8_t side, struct bootswap_description *description);

/*
 * Reads the state in the log of a flash. Returns 0; BOOTSWAP_NO_LOG if the log has none; or why there is no such flash.
 * `state` is all zero then.
 */
uint32_t bootswap_state(const struct bootswap_setup *setup, const uint8_t *flash, size_t flash_length,
                        struct bootswap_state *state);

/* Describes the image that the bytes are. Returns 0, or the number of the first check that fails, 1 to 15. */
uint32_t bootswap_describe(const uint8_t *bytes, size_t bytes_length, struct bootswap_description *description);

/*
 * Makes an image of a body and its values at the front of `image`, with the bytes that `bootswap make-image` writes for
 * them. The bytes after it stay as they were. Returns 0, and in `length` the length of the image in bytes;
 * BOOTSWAP_BAD_IMAGE if no image has these values, for example if a needed image has a number above 255: then `length`
 * is 0; or BOOTSWAP_TOO_SMALL, only if the image is longer than the buffer: then `length` is its length. `image`
 * changes only if 0 is returned. An image has 40 bytes more than its header and body, and at most 476 more if it has a
 * security counter, dependencies or groups.
 */
uint32_t bootswap_make_image(const struct bootswap_image_parts *parts, const uint8_t *body, size_t body_length,
                             uint8_t *image, size_t image_capacity, uint64_t *length);

/* The SHA-256 of bytes (FIPS 180-4). */
void bootswap_digest(const uint8_t *bytes, size_t bytes_length, struct bootswap_sha256 *digest);

/*
 * Chooses among the requests of a table, which is a text, and writes the text of the report to the front of `report`.
 * Returns 0, and in `length` the length of the report in bytes; BOOTSWAP_NO_TABLE, and in `length` the number of the
 * first bad line; BOOTSWAP_INVALID_SET; or BOOTSWAP_TOO_SMALL, only if the report is longer than the buffer.
 */
uint32_t bootswap_choose(const char *table, size_t table_length, char *report, size_t report_capacity,
                         uint64_t *length);

/*
 * Checks whether a report is right for a table. Both are texts. Returns 0 if it is, BOOTSWAP_WRONG if it isn't; or
 * BOOTSWAP_NO_TABLE or BOOTSWAP_NO_REPORT, and in `line` the number of the first bad line.
 */
uint32_t bootswap_check(const char *table, size_t table_length, const char *report, size_t report_length,
                        uint64_t *line);

/*
 * The same two calls with the table in a workspace. They return and write exactly what those without one do, whatever
 * the workspace holds, and take less than 2 kB of stack. What they leave in the workspace has no meaning.
 */
uint32_t bootswap_choose_in(struct bootswap_workspace *workspace, const char *table, size_t table_length, char *report,
                            size_t report_capacity, uint64_t *length);
uint32_t bootswap_check_in(struct bootswap_workspace *workspace, const char *table, size_t table_length,
                           const char *report, size_t report_length, uint64_t *line);

#ifdef __cplusplus
}
#else
_Static_assert(sizeof(struct bootswap_setup) == 76, "the setup of a device");
_Static_assert(sizeof(struct bootswap_saved_state) == 420, "the saved state of a device");
_Static_assert(sizeof(struct bootswap_result) == 600, "the result of a call");
_Static_assert(sizeof(struct bootswap_manifest) == 584, "a manifest");
_Static_assert(sizeof(struct bootswap_description) == 464, "a description");
_Static_assert(sizeof(struct bootswap_image_parts) == 432, "the values of an image");
_Static_assert(sizeof(struct bootswap_state) == 52, "the state in a log");
_Static_assert(sizeof(struct bootswap_workspace) == 7304, "the memory of a choice or of a check");
#endif

#endif
