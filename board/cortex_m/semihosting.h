/* Files of the PC, by Arm's semihosting. QEMU makes each call before the processor continues. */
#ifndef SEMIHOSTING_H
#define SEMIHOSTING_H

#include <stdbool.h>
#include <stddef.h>
#include <stdint.h>

/* Opens the file that is named on QEMU's command line, to read and to write it. */
bool file_open(void);

/* Moves to a byte of the file. */
bool file_seek(uint32_t at);

/* Read and write N bytes from there on. */
bool file_read(uint8_t *out, size_t length);
bool file_write(const uint8_t *bytes, size_t length);

#endif
