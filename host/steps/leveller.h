/* The leveller's sample, in the order that document 02 has (W7). Who includes this may name a square root by
 * root32; else it is the C library's. */
#include "common.h"

#ifndef root32
#include <math.h>
#define root32 sqrtf
#endif

/* The larger of the two, and the second where the first is a NaN. */
static inline float larger(float x, float least)
{
    return least < x ? x : least;
}

static inline float gain_at(float ratio, float over)
{
    if (ratio == 1 || over == 1)
        return 1;
    float s = root32(over);
    return ratio == 2 ? 1 / s : 1 / (s * root32(s));
}

static inline float leveller_step(const hoofglaze_leveller_settings *s, hoofglaze_leveller_registers *m,
                                  float x)
{
    m->level = followed(s->rising, s->falling, m->level, larger(__builtin_fabsf(x), 1e-10f));
    float over = larger(m->level / s->factor.factor, 1);
    return settled(x * gain_at(s->ratio, over) * s->makeup.factor);
}
