/*
 * What the compiler calls for where a processor has no instruction: a product of 64 bits on ARMv6-M. Any other library's will do as
 * well, so these give way to it; a firmware without a C library needs nothing else for it.
 */
#include <stdint.h>

#if defined(__ARM_ARCH_6M__)
uint64_t __aeabi_lmul(uint64_t a, uint64_t b);

/* From products of 16 bits, since a product of two words keeps only its low word. */
__attribute__((weak)) uint64_t __aeabi_lmul(uint64_t a, uint64_t b)
{
    uint32_t al = (uint32_t)a, bl = (uint32_t)b;
    uint32_t a0 = al & 0xFFFF, a1 = al >> 16, b0 = bl & 0xFFFF, b1 = bl >> 16;
    uint32_t low = a0 * b0, one = a1 * b0, other = a0 * b1;
    uint32_t middle = (low >> 16) + (one & 0xFFFF) + (other & 0xFFFF);
    uint32_t high = a1 * b1 + (one >> 16) + (other >> 16) + (middle >> 16);
    high += (uint32_t)(a >> 32) * bl + al * (uint32_t)(b >> 32);
    return (uint64_t)high << 32 | (middle << 16 | (low & 0xFFFF));
}
#else
typedef int nothing_is_needed_here;
#endif
