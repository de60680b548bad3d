/* Linked with a program, takes its power away in one of its writes to a file.

   POWER_AT is the number of that call of `pwrite`, counted from 1. POWER_LEAVES says what it leaves in its range: "nothing"
   of the new bytes, "all" of them, the first "half" of them, or a number from which bytes at random follow. Then the process
   is killed. Without POWER_AT nothing changes. */
#define _GNU_SOURCE
#include <signal.h>
#include <stdlib.h>
#include <string.h>
#include <sys/syscall.h>
#include <unistd.h>

static long calls;

static ssize_t put(int file, const void *bytes, size_t length, off_t at) {
    if (sizeof(long) == 8) return syscall(SYS_pwrite64, file, bytes, length, at);
    /* 32-bit ARM takes the offset in two registers, the first of an even number. */
    return syscall(SYS_pwrite64, file, bytes, length, 0, (long)at, 0);
}

static void put_random(int file, unsigned seed, size_t length, off_t at) {
    for (size_t i = 0; i < length; i++) {
        seed = seed * 1103515245 + 12345;
        unsigned char byte = (unsigned char)(seed >> 16);
        put(file, &byte, 1, at + (off_t)i);
    }
}

static void tear(int file, const void *bytes, size_t length, off_t at) {
    const char *leaves = getenv("POWER_LEAVES");
    if (!leaves || strcmp(leaves, "nothing") == 0) {
        return;
    }
    if (strcmp(leaves, "all") == 0 || strcmp(leaves, "half") == 0) {
        put(file, bytes, *leaves == 'h' ? length / 2 : length, at);
        return;
    }
    put_random(file, (unsigned)atol(leaves), length, at);
}

ssize_t pwrite(int file, const void *bytes, size_t length, off_t at) {
    const char *last = getenv("POWER_AT");
    if (last && ++calls == atol(last)) {
        tear(file, bytes, length, at);
        raise(SIGKILL);
    }
    return put(file, bytes, length, at);
}

/* The flash is shorter than any limit of `off_t`. */
ssize_t pwrite64(int file, const void *bytes, size_t length, off64_t at) { return pwrite(file, bytes, length, (off_t)at); }
