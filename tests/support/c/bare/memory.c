/* The functions of string.h, with aligned accesses only, and how a number is written. */
#include <stdint.h>
#include <string.h>

#include "bare.h"

typedef uint32_t __attribute__((may_alias)) word;

static int are_aligned(const void *one, const void *other) { return (((uintptr_t)one | (uintptr_t)other) & 3) == 0; }

void *memcpy(void *to, const void *from, size_t length) {
    unsigned char *out = to;
    const unsigned char *in = from;
    if (are_aligned(out, in)) {
        for (; length >= 4; length -= 4, out += 4, in += 4) *(word *)(void *)out = *(const word *)(const void *)in;
    }
    while (length-- > 0) *out++ = *in++;
    return to;
}

void *memmove(void *to, const void *from, size_t length) {
    unsigned char *out = to;
    const unsigned char *in = from;
    if ((uintptr_t)out - (uintptr_t)in >= length) return memcpy(to, from, length);
    while (length-- > 0) out[length] = in[length];
    return to;
}

void *memset(void *to, int byte, size_t length) {
    unsigned char *out = to;
    if (are_aligned(out, out)) {
        for (; length >= 4; length -= 4, out += 4) *(word *)(void *)out = 0x01010101u * (unsigned char)byte;
    }
    while (length-- > 0) *out++ = (unsigned char)byte;
    return to;
}

void write_number(uint32_t number) {
    char text[11], *at = text + 10;
    *at = 0;
    do {
        *--at = (char)('0' + number % 10);
        number /= 10;
    } while (number != 0);
    write_text(at);
}
