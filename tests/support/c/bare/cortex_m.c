/* Starts a Cortex-M of QEMU's machines mps2-an385 and mps2-an386. It prints and ends by semihosting. An access that isn't aligned
   is a fault, as on processors that have none: the Cortex-M0 and M0+. */
#include "bare.h"

#define CONTROL (*(volatile uint32_t *)0xe000ed14)
#define FAULT_STATUS (*(volatile uint32_t *)0xe000ed28)
enum { TRAP_UNALIGNED = 1 << 3, WRITE_TEXT = 4, EXIT = 0x20, APPLICATION_EXIT = 0x20026 };

extern uint32_t stack_top, data_from, data_start, data_end, bss_start, bss_end;
int main(void);
void reset(void);

static uint32_t ask_host(uint32_t what, const void *words) {
    register uint32_t r0 __asm__("r0") = what;
    register const void *r1 __asm__("r1") = words;
    __asm__ volatile("bkpt 0xab" : "+r"(r0) : "r"(r1) : "memory");
    return r0;
}

void write_text(const char *text) { ask_host(WRITE_TEXT, text); }

_Noreturn void end_run(uint32_t status) {
    uint32_t words[2] = {APPLICATION_EXIT, status};
    ask_host(EXIT, words);
    for (;;) {
    }
}

static void fault(void) {
    write_text("a fault, CFSR ");
    write_number(FAULT_STATUS);
    write_text("\n");
    end_run(1);
}

void reset(void) {
    CONTROL |= TRAP_UNALIGNED;
    __asm__ volatile("dsb\nisb");
    for (volatile uint32_t *to = &data_start, *from = &data_from; to < &data_end;) *to++ = *from++;
    for (volatile uint32_t *to = &bss_start; to < &bss_end;) *to++ = 0;
    end_run((uint32_t)main());
}

__attribute__((section(".vectors"), used)) static const void *const vectors[16] = {
    &stack_top, reset, fault, fault, fault, fault, fault, 0, 0, 0, 0, fault, fault, 0, fault, fault};
