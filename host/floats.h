/* A number's bits and the number that has them, a NaN's too: no arithmetic and no cast touches them. */
#ifndef FLOATS_H
#define FLOATS_H

#include <stdint.h>
#include <string.h>

#define QUIET32 0x7fc00000u
#define QUIET64 0x7ff8000000000000u

static inline uint32_t bytes32(float x)
{
    uint32_t n;
    memcpy(&n, &x, sizeof n);
    return n;
}

static inline uint64_t bytes64(double x)
{
    uint64_t n;
    memcpy(&n, &x, sizeof n);
    return n;
}

static inline float float_of(uint32_t n)
{
    float x;
    memcpy(&x, &n, sizeof x);
    return x;
}

static inline double double_of(uint64_t n)
{
    double x;
    memcpy(&x, &n, sizeof x);
    return x;
}

/* Any NaN as the quiet one. */
static inline float settled(float x)
{
    return x != x ? float_of(QUIET32) : x;
}

static inline double settled64(double x)
{
    return x != x ? double_of(QUIET64) : x;
}

#endif
