/* The three functions of a C library that the bootloader and bootswap need. */
#include <stddef.h>

void *memcpy(void *to, const void *from, size_t length);
void *memmove(void *to, const void *from, size_t length);
void *memset(void *to, int byte, size_t length);

void *memcpy(void *to, const void *from, size_t length) {
    unsigned char *out = to;
    const unsigned char *in = from;
    while (length--) {
        *out++ = *in++;
    }
    return to;
}

void *memmove(void *to, const void *from, size_t length) {
    unsigned char *out = to;
    const unsigned char *in = from;
    if (out < in) {
        return memcpy(to, from, length);
    }
    while (length--) {
        out[length] = in[length];
    }
    return to;
}

void *memset(void *to, int byte, size_t length) {
    unsigned char *out = to;
    while (length--) {
        *out++ = (unsigned char)byte;
    }
    return to;
}
