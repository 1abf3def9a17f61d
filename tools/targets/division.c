/*
 * As support.c, for mast_load: a division, which ARMv6-M has no instruction for. In an object of its own, so that a firmware that does
 * not load state files does not link it.
 */
#include <stdint.h>

#if defined(__ARM_ARCH_6M__)
uint32_t __aeabi_uidiv(uint32_t a, uint32_t b);

/* Bit by bit. The rest is never more than the bits of `a` taken so far, so doubling it loses nothing. */
__attribute__((weak)) uint32_t __aeabi_uidiv(uint32_t a, uint32_t b)
{
    uint32_t quotient = 0, rest = 0;
    for (int bit = 31; bit >= 0; bit--) {
        rest = rest << 1 | (a >> bit & 1);
        quotient <<= 1;
        if (rest >= b) {
            rest -= b;
            quotient |= 1;
        }
    }
    return quotient;
}
#else
typedef int nothing_is_needed_here;
#endif
