// The conversation on a 32-bit RISC-V without a C library: start, and output by Linux's calls, which qemu-riscv32 has.
#include "conversation.h"

#include <stdint.h>

enum { WRITE = 64, EXIT = 93 };

static void ask_linux(uint32_t call, uint32_t first, uintptr_t second, uint32_t third)
{
    register uint32_t a0 __asm__("a0") = first;
    register uintptr_t a1 __asm__("a1") = second;
    register uint32_t a2 __asm__("a2") = third;
    register uint32_t a7 __asm__("a7") = call;
    __asm__ volatile("ecall" : "+r"(a0) : "r"(a1), "r"(a2), "r"(a7) : "memory");
}

void put(const char *text)
{
    uint32_t length = 0;
    while (text[length] != 0)
        length++;
    ask_linux(WRITE, 1, (uintptr_t)text, length);
}

void _start(void)
{
    converse();
    ask_linux(EXIT, 0, 0, 0);
}
