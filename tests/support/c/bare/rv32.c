/* Starts QEMU's machine `virt` with a RISC-V processor of 32 bits. It prints on the serial port, and ends by a device of the
   machine. */
#include "bare.h"

#define SERIAL (*(volatile uint8_t *)0x10000000)
#define END (*(volatile uint32_t *)0x100000)
enum { PASSED = 0x5555, FAILED = 0x3333 };

void fault(void);
int main(void);

__asm__(
    ".section .vectors\n.globl reset\nreset:\n la sp, stack_top\n la t0, bss_start\n la t1, bss_end\n"
    "1: bgeu t0, t1, 2f\n sw zero, 0(t0)\n addi t0, t0, 4\n j 1b\n"
    "2: la t0, fault\n csrw mtvec, t0\n call main\n j end_run\n.text\n");

void write_text(const char *text) {
    while (*text != 0) SERIAL = (uint8_t)*text++;
}

_Noreturn void end_run(uint32_t status) {
    END = status == 0 ? PASSED : status << 16 | FAILED;
    for (;;) {
    }
}

__attribute__((aligned(4))) void fault(void) {
    uint32_t cause, at;
    __asm__ volatile("csrr %0, mcause\ncsrr %1, mepc" : "=r"(cause), "=r"(at));
    write_text("a fault ");
    write_number(cause);
    write_text(" at ");
    write_number(at);
    write_text("\n");
    end_run(1);
}
