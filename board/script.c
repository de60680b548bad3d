/* Reads lines from the serial port. */
#include "script.h"

#include <stdbool.h>
#include <string.h>

#include "serial.h"

/* A line with the longest piece, and the 0 after it. */
static char line[16 + 2 * MOST_BYTES];

/* What is left of the line. */
static const char *rest;

/* Waits for a line, and returns whether it isn't too long. A line doesn't end with a space. */
static bool read_line(void) {
    size_t length = 0;
    for (char byte = serial_read(); byte != '\n'; byte = serial_read()) {
        if (length < sizeof line) {
            line[length++] = byte;
        }
    }
    if (length == sizeof line || (length && line[length - 1] == ' ')) {
        return false;
    }
    line[length] = 0;
    rest = line;
    return true;
}

/* Takes a word and the space after it, if the line goes on with this word. */
static bool take_word(const char *word) {
    const char *at = rest;
    while (*word && *at == *word) {
        at++;
        word++;
    }
    if (*word || (*at && *at != ' ')) {
        return false;
    }
    rest = *at ? at + 1 : at;
    return true;
}

static bool take_number(uint32_t most, uint32_t *number) {
    uint64_t value = 0;
    const char *at = rest;
    while (*at >= '0' && *at <= '9' && value <= most) {
        value = 10 * value + (uint64_t)(*at++ - '0');
    }
    if (at == rest || (*at && *at != ' ') || value > most) {
        return false;
    }
    rest = *at ? at + 1 : at;
    *number = (uint32_t)value;
    return true;
}

static bool take_image(uint8_t *image) {
    uint32_t number;
    if (!take_number(255, &number)) {
        return false;
    }
    *image = (uint8_t)number;
    return true;
}

/* The value of a hexadecimal digit, or 16. */
static unsigned digit_of(char byte) {
    if (byte >= '0' && byte <= '9') {
        return (unsigned)(byte - '0');
    }
    return byte >= 'a' && byte <= 'f' ? (unsigned)(byte - 'a') + 10 : 16;
}

/* Takes 1 to N bytes in hexadecimal. */
static bool take_bytes(uint8_t *bytes, size_t most, size_t *length) {
    const char *at = rest;
    for (*length = 0; *at && *at != ' '; at += 2) {
        unsigned high = digit_of(at[0]), low = high < 16 ? digit_of(at[1]) : 16;
        if (low == 16 || *length == most) {
            return false;
        }
        bytes[(*length)++] = (uint8_t)(16 * high + low);
    }
    rest = *at ? at + 1 : at;
    return *length > 0;
}

static bool take_digest(uint8_t digest[32]) {
    size_t length;
    return take_bytes(digest, 32, &length) && length == 32;
}

static bool take_component(struct bootswap_component *component) {
    if (!take_image(&component->image)) {
        return false;
    }
    component->is_permanent = take_word("permanent");
    if (!component->is_permanent && !take_word("test")) {
        return false;
    }
    if (!take_number(UINT32_MAX, &component->size) || !take_digest(component->digest)) {
        return false;
    }
    component->has_precursor = !take_word("-");
    return !component->has_precursor || take_digest(component->precursor);
}

static bool take_manifest(struct bootswap_manifest *manifest) {
    memset(manifest, 0, sizeof *manifest);
    if (!take_number(UINT32_MAX, &manifest->sequence)) {
        return false;
    }
    while (*rest && manifest->count < 8) {
        if (!take_component(&manifest->components[manifest->count++])) {
            return false;
        }
    }
    return manifest->count > 0;
}

static bool take_piece(struct event *event) {
    event->length = 0;
    return take_image(&event->image) &&
           (take_word("-") || take_bytes(event->bytes, MOST_BYTES, &event->length));
}

static bool take_event(struct event *event) {
    static const struct {
        const char *word;
        enum event_kind kind;
    } words[] = {
        {"accept", EVENT_ACCEPT},     {"piece", EVENT_PIECE},     {"finish", EVENT_FINISH},
        {"withdraw", EVENT_WITHDRAW}, {"confirm", EVENT_CONFIRM}, {"boot", EVENT_BOOT},
        {"reset", EVENT_RESET},       {"provision", EVENT_PROVISION}, {"stack", EVENT_STACK},
    };
    for (size_t i = 0; i < sizeof words / sizeof words[0]; i++) {
        if (take_word(words[i].word)) {
            event->kind = words[i].kind;
            break;
        }
    }
    switch (event->kind) {
    case EVENT_ACCEPT:
        return take_manifest(&event->manifest);
    case EVENT_PIECE:
        return take_piece(event);
    case EVENT_FINISH:
    case EVENT_WITHDRAW:
    case EVENT_CONFIRM:
        return take_image(&event->image);
    default:
        return true;
    }
}

void script_read(struct event *event) {
    event->kind = EVENT_UNREADABLE;
    serial_write_text("> ");
    if (!read_line() || !take_event(event) || *rest) {
        event->kind = EVENT_UNREADABLE;
    }
}
