/* Writes replies to the serial port. */
#include "replies.h"

#include "bootswap_names.h"
#include "serial.h"

/* Writes a space and a number. */
static void write_number(uint32_t number) {
    serial_write(' ');
    serial_write_number(number);
}

/* Writes the number of a refusal, and its name. */
static void write_refusal(const char *kind, uint32_t number, const char *name) {
    serial_write_text(" refused ");
    serial_write_text(kind);
    write_number(number);
    serial_write(' ');
    serial_write_text(name);
}

static void write_refused(const struct bootswap_result *result) {
    if (result->fault == BOOTSWAP_MANIFEST) {
        write_refusal("manifest", result->detail, bootswap_manifest_fault_name(result->detail));
    } else if (result->fault == BOOTSWAP_UPLOAD) {
        write_refusal("upload", result->detail, bootswap_upload_fault_name(result->detail));
        if (result->detail == BOOTSWAP_NOT_AN_IMAGE) {
            write_number(result->check);
        }
    } else {
        write_refusal("boot", result->fault, bootswap_fault_name(result->fault));
        if (result->fault == BOOTSWAP_RUNNING_DAMAGED) {
            write_number(result->detail);
        }
    }
}

/* Writes the numbers of the images of a set. */
static void write_set(uint32_t set) {
    for (uint32_t image = 0; image < 8; image++) {
        if (set >> image & 1) {
            write_number(image);
        }
    }
}

static const char *kind_of(const struct bootswap_result *result) {
    return result->permanent ? " permanent" : result->set ? " trial" : " plain";
}

static void write_result(uint32_t status, const struct bootswap_result *result) {
    switch (status) {
    case BOOTSWAP_DONE:
        serial_write_text(" done");
        break;
    case BOOTSWAP_BOOTED:
        serial_write_text(kind_of(result));
        break;
    case BOOTSWAP_TRIAL_AGAIN:
        serial_write_text(" trial-again");
        write_set(result->set);
        serial_write_text(" left");
        write_number(result->left);
        break;
    case BOOTSWAP_REFUSED:
        write_refused(result);
        break;
    default:
        /* A status of driver.h, or of a call that can't be made with this setup. */
        serial_write_text(" failed");
        write_number(status);
    }
}

void reply_reverted(uint32_t event, uint32_t set) {
    serial_write_number(event);
    serial_write_text(" reverted");
    write_set(set);
    serial_write('\n');
}

void reply_stack(uint32_t event, uint32_t used, uint32_t size) {
    serial_write_number(event);
    serial_write_text(" stack");
    write_number(used);
    serial_write_text(" of");
    write_number(size);
    serial_write('\n');
}

void reply(uint32_t event, uint32_t status, const struct bootswap_result *result,
           const char *report) {
    serial_write_number(event);
    write_result(status, result);
    serial_write('\n');
    if (status == BOOTSWAP_BOOTED) {
        serial_write_bytes(report, result->report_length);
    }
}
