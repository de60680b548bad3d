/* The functions of C that the library and driver.c call, for compilers that come without a library: memory.c has them. */
#include <stddef.h>

void *memcpy(void *to, const void *from, size_t length);
void *memmove(void *to, const void *from, size_t length);
void *memset(void *to, int byte, size_t length);
