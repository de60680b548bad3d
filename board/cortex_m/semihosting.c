/* Calls of semihosting: a breakpoint that QEMU takes as a call. */
#include "semihosting.h"

enum call { OPEN = 0x01, WRITE = 0x05, READ = 0x06, SEEK = 0x0a, COMMAND_LINE = 0x15 };

/* The mode "r+b" of fopen(). */
#define READ_AND_WRITE 3

static uint32_t handle;

/* Makes a call, and returns its result. Its words are its arguments. */
static uint32_t make_call(enum call call, const void *words) {
    register uint32_t r0 __asm__("r0") = call;
    register const void *r1 __asm__("r1") = words;
    __asm__ volatile("bkpt 0xab" : "+r"(r0) : "r"(r1) : "memory");
    return r0;
}

bool file_open(void) {
    static char name[1024];
    struct {
        char *name;
        uint32_t length;
    } line = {name, sizeof name};
    if (make_call(COMMAND_LINE, &line) != 0) {
        return false;
    }
    struct {
        const char *name;
        uint32_t mode, length;
    } file = {line.name, READ_AND_WRITE, line.length};
    handle = make_call(OPEN, &file);
    return handle != UINT32_MAX;
}

bool file_seek(uint32_t at) {
    const uint32_t words[2] = {handle, at};
    return make_call(SEEK, words) == 0;
}

/* Both calls return the number of bytes that are left. */
bool file_read(uint8_t *out, size_t length) {
    const uint32_t words[3] = {handle, (uint32_t)(uintptr_t)out, length};
    return make_call(READ, words) == 0;
}

bool file_write(const uint8_t *bytes, size_t length) {
    const uint32_t words[3] = {handle, (uint32_t)(uintptr_t)bytes, length};
    return make_call(WRITE, words) == 0;
}
