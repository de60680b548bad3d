/*
 * Events that come to the device: lines from the serial port, such as those of a script for
 * `bootswap run`. A file is given by its contents, since the board has no files:
 *
 *     accept SEQUENCE COMPONENT..    COMPONENT: IMAGE test|permanent SIZE DIGEST PRECURSOR|-
 *     piece IMAGE BYTES              BYTES: in hexadecimal, or -
 *     finish IMAGE
 *     withdraw IMAGE
 *     confirm IMAGE
 *     boot
 *     reset
 *     provision
 *     stack                          asks how many bytes of the stack were used since the power-up
 */
#ifndef SCRIPT_H
#define SCRIPT_H

#include "bootswap.h"

/* The most bytes of a piece: a slot of two sectors. */
#define MOST_BYTES 8192u

enum event_kind {
    EVENT_UNREADABLE, /* the line is none of the above */
    EVENT_ACCEPT,
    EVENT_PIECE,
    EVENT_FINISH,
    EVENT_WITHDRAW,
    EVENT_CONFIRM,
    EVENT_BOOT,
    EVENT_RESET,
    EVENT_PROVISION,
    EVENT_STACK
};

struct event {
    enum event_kind kind;
    uint8_t image;                      /* of a piece, finish, withdraw and confirm */
    struct bootswap_manifest manifest;  /* of accept */
    size_t length;                      /* of a piece: the number of its bytes */
    uint8_t bytes[MOST_BYTES];
};

/* Writes a prompt, waits for a line, and reads it. */
void script_read(struct event *event);

#endif
