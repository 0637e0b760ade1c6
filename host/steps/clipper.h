/* The clipper's sample, hard and triode, over the table that the Rust exported. */
#include "common.h"

/* The table as bits: host/toolchain makes this file of oracle/src/clipper/triode_bits.txt. */
static const uint32_t triode_bits[] = {
#include "triode_bits.h"
};

_Static_assert(sizeof triode_bits == 256 * sizeof(uint32_t), "a table of 256");

static inline float clamped(float lowest, float highest, float x)
{
    return x < lowest ? lowest : x > highest ? highest : x;
}

static inline size_t least(size_t a, size_t b)
{
    return a < b ? a : b;
}

static inline float hard(float drive, float x)
{
    return settled(clamped(-1, 1, x * drive));
}

static inline float triode(float drive, float x)
{
    float place = (clamped(-10, 10, x * drive) + 10) / 20 * 255;
    size_t i = least((size_t)place, 254);
    float fraction = place - (float)i;
    float p0 = float_of(triode_bits[i ? i - 1 : 0]), p1 = float_of(triode_bits[i]);
    float p2 = float_of(triode_bits[i + 1]), p3 = float_of(triode_bits[least(i + 2, 255)]);
    float a = fma32(-0.5f, p0, 1.5f * p1) + fma32(-1.5f, p2, 0.5f * p3);
    float b = fma32(2.5f, -p1, p0) + fma32(2, p2, -0.5f * p3);
    float c = fma32(-0.5f, p0, 0.5f * p2);
    return settled(clamped(-1, 1, fma32(fma32(fma32(a, fraction, b), fraction, c), fraction, p1)));
}
