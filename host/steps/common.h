/* Document 01's steps in C, which share nothing with the library's code: what the stages have in common, the
 * follower and the DC blocker. Every NaN that a step writes is settled. Who includes this may name a fused
 * multiply-add by fma32 and fma64; else it is the C library's. */
#ifndef STEPS_COMMON_H
#define STEPS_COMMON_H

#include "floats.h"
#include "hoofglaze.h"

#ifndef fma32
#include <math.h>
#define fma32 fmaf
#define fma64 fma
#endif

static inline float toward(float c, float from, float to)
{
    return fma32(c, from, (1 - c) * to);
}

static inline float followed(float attack, float release, float level, float x)
{
    float r = __builtin_fabsf(x);
    return settled(toward(r > level ? attack : release, level, r));
}

static inline float blocked(float c, float x1, float y1, float x)
{
    return settled(fma32(c, y1, x - x1));
}

#endif
