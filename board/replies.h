/* The text of replies, as `bootswap run` prints it (docs/FORMATS.md, "Replies of a device"). */
#ifndef REPLIES_H
#define REPLIES_H

#include "bootswap.h"

/* Writes to the serial port the reply to event N, by what its call returned and reported. */
void reply(uint32_t event, uint32_t status, const struct bootswap_result *result,
           const char *report);

/* Writes the reply of a boot that reverted a set. */
void reply_reverted(uint32_t event, uint32_t set);

/* Writes how many bytes of the stack were used, and how many it has. */
void reply_stack(uint32_t event, uint32_t used, uint32_t size);

#endif
