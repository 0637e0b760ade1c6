/* The tone stack's sample. The four alphas come from the settings alone, so a block works them out once. */
#include "common.h"

struct alphas {
    float dc, bass, treble, presence;
};

static inline float alpha(float rate, float corner)
{
    float dt = 1 / rate;
    return dt / (dt + 1 / (2 * 3.14159265358979323846f * corner));
}

static inline struct alphas alphas(const hoofglaze_tone_settings *s)
{
    static const float corners[4][3] = {
        {120, 2200, 6000}, {100, 2000, 5000}, {80, 1800, 4000}, {100, 2000, 5000}};
    const float *c = corners[s->model];
    return (struct alphas){alpha(s->rate, 20), alpha(s->rate, c[0]), alpha(s->rate, c[1]),
                           alpha(s->rate, c[2])};
}

static inline float at_least(float x)
{
    return x > 0.001f ? x : 0.001f;
}

/* The model's last factor, none for Flat, then 0.7. */
static inline float flavoured(uint32_t model, float x)
{
    float y = model == 0 ? x * 0.95f : model == 1 ? x * 1.05f : model == 2 ? x * 0.97f : x;
    return y * 0.7f;
}

static inline float tone_step(const hoofglaze_tone_settings *s, struct alphas a, hoofglaze_tone_registers *m,
                              float input)
{
    m->dc = settled(m->dc + a.dc * (input - m->dc));
    float x = input - m->dc;
    m->bass = settled(fma32(a.bass, x - m->bass, m->bass));
    m->treble = settled(fma32(a.treble, x - m->treble, m->treble));
    float high = x - m->treble, mid = m->treble - m->bass;
    float y = fma32(high, at_least(s->treble), fma32(m->bass, at_least(s->bass), mid * at_least(s->mid)));
    m->presence = settled(fma32(a.presence, y - m->presence, m->presence));
    float shelf = fma32(y - m->presence, s->factor.factor, m->presence);
    return settled(flavoured(s->model, shelf));
}
