/* The multiband saturator's sample: three bands by six filters, each band followed, saturated and cleaned of
 * DC, and their mix. */
#include "common.h"

static inline float half(const hoofglaze_saturator_numbers *n, hoofglaze_saturator_half *h, float x)
{
    float y = fma32(n->b2, h->x2, fma32(n->b0, x, n->b1 * h->x1));
    y = settled(fma32(n->a2, -h->y2, fma32(n->a1, -h->y1, y)));
    *h = (hoofglaze_saturator_half){settled(x), settled(h->x1), y, settled(h->y1)};
    return y;
}

static inline float filtered(const hoofglaze_saturator_numbers *n, hoofglaze_saturator_filter *f, float x)
{
    return half(n, &f->second, half(n, &f->first, x));
}

static inline float saturated(float x, float drive)
{
    x *= fma32(drive, 9, 1);
    return x / (1 + __builtin_fabsf(x));
}

/* Follower, saturation, DC blocker. */
static inline float cleaned(const hoofglaze_saturator_settings *s, hoofglaze_saturator_band *b, float drive,
                            float x)
{
    float level = followed(s->attack, s->release, b->level, x);
    float y = level > 0.0001f ? saturated(x / (1 + level), drive) * fma32(level, 0.5f, 1)
                              : saturated(x, drive);
    float clean = blocked(s->blocker, b->x1, b->y1, y);
    *b = (hoofglaze_saturator_band){level, settled(y), clean};
    return clean;
}

static inline float saturator_step(const hoofglaze_saturator_settings *s, hoofglaze_saturator_registers *m,
                                   float x)
{
    const hoofglaze_saturator_crossover *c = &s->low, *d = &s->high;
    float below = filtered(&c->lowpass, &m->low, x), side = filtered(&c->highpass, &m->side, x);
    float mid = filtered(&d->lowpass, &m->mid, side), high = filtered(&d->highpass, &m->high, side);
    float low = filtered(&d->lowpass, &m->lowpass, below);
    low += filtered(&d->highpass, &m->highpass, below);
    low = cleaned(s, &m->lows, s->drives.low, low);
    mid = cleaned(s, &m->mids, s->drives.mid, mid);
    high = cleaned(s, &m->highs, s->drives.high, high);
    return settled(low * s->levels.low + mid * s->levels.mid + high * s->levels.high);
}
