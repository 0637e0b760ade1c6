/* What the square root of a float is: the processor's own, which is the nearest, and a judge of it by squares
 * of whole numbers. Floats are told by their bits. */
#ifndef STEPS_ROOT_H
#define STEPS_ROOT_H

#include <math.h>

#include "floats.h"

static inline uint32_t root_of_c(uint32_t x)
{
    return bytes32(settled(sqrtf(float_of(x))));
}

/* Whether y is the float nearest to the root of x, which is finite and above zero. With x = n * 4^k, where n
 * has 47 or 48 digits, and y = q * 2^k that is q - 1/2 < root of n < q + 1/2, in squares. */
static inline int is_nearest_root(uint32_t x, uint32_t y)
{
    int lost = x < 0x800000 ? __builtin_clz(x) - 8 : 0;
    uint64_t m = x < 0x800000 ? (uint64_t)x << lost : (x & 0x7fffff) | 0x800000;
    int e = (x < 0x800000 ? 1 - lost : (int)(x >> 23)) - 150 - 23, odd = e & 1, k = (e - odd) / 2;
    uint64_t n = m << (23 + odd), q = (y & 0x7fffff) | 0x800000;
    int above = (int)(y >> 23) - 150 - k;
    if (above != 0 && above != 1)
        return 0;
    q <<= above;
    return q * q - q < n && n <= q * q + q;
}

#endif
