// What the compilers call where there is no C library. The `__aeabi_` names are those of 32-bit ARM without Linux.
// To be compiled with -ffreestanding: else a compiler may take these very loops for calls of memcpy and memset.
#include <stddef.h>
#include <stdint.h>

void *memcpy(void *to, const void *from, size_t length)
{
    for (size_t i = 0; i < length; i++)
        ((uint8_t *)to)[i] = ((const uint8_t *)from)[i];
    return to;
}

void *memset(void *to, int byte, size_t length)
{
    for (size_t i = 0; i < length; i++)
        ((uint8_t *)to)[i] = (uint8_t)byte;
    return to;
}

#ifdef __arm__
void __aeabi_memcpy(void *to, const void *from, size_t length)
{
    memcpy(to, from, length);
}

void __aeabi_memclr(void *to, size_t length)
{
    memset(to, 0, length);
}

// Of what is aligned to 4 and to 8 bytes.
void __aeabi_memclr4(void *to, size_t length)
{
    memset(to, 0, length);
}

void __aeabi_memclr8(void *to, size_t length)
{
    memset(to, 0, length);
}
#endif
