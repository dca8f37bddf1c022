// The conversation on a Cortex-M4 without a C library: start, and output by semihosting.
#include "conversation.h"

#include <stdint.h>

extern uint32_t bss_start[], bss_end[], stack_top[];

// ---- Semihosting: the emulator takes these calls

enum { SYS_WRITE0 = 0x04, SYS_EXIT = 0x18 };
enum { APPLICATION_EXIT = 0x20026, RUN_TIME_ERROR = 0x20023 };

static void semihost(uint32_t operation, uintptr_t argument)
{
    register uint32_t r0 __asm__("r0") = operation;
    register uintptr_t r1 __asm__("r1") = argument;
    __asm__ volatile("bkpt 0xAB" : "+r"(r0) : "r"(r1) : "memory");
}

void put(const char *text)
{
    semihost(SYS_WRITE0, (uintptr_t)text);
}

// ---- Start

void reset(void)
{
    for (uint32_t *word = bss_start; word < bss_end; word++)
        *word = 0;
    converse();
    semihost(SYS_EXIT, APPLICATION_EXIT);
}

static void fault(void)
{
    put("fault\n");
    semihost(SYS_EXIT, RUN_TIME_ERROR);
}

// The first entry is the stack's top, then reset, NMI and the faults.
__attribute__((section(".vectors"), used)) static const uintptr_t vectors[] = {
    (uintptr_t)stack_top, (uintptr_t)reset, (uintptr_t)fault, (uintptr_t)fault,
    (uintptr_t)fault, (uintptr_t)fault, (uintptr_t)fault,
};
