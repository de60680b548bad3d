/* What a program on a machine without an operating system has: cortex_m.c and rv32.c each have these for their machine. */
#include <stdint.h>

void write_text(const char *text);
void write_number(uint32_t number);
_Noreturn void end_run(uint32_t status);
