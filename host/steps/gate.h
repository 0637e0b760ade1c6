/* The noise gate's sample: follower, hold, aim, smoothing and gain, in the order that document 01 has; and the
 * quiet count. */
#include "common.h"

static inline float gain(float ratio, float state)
{
    float g = 1 / ratio;
    return state < 0.999f ? fma32(1 - g, state, g) : 1;
}

/* Whether the gate aims open at x; *y is the output. */
static inline int gate_step(const hoofglaze_gate_settings *s, hoofglaze_gate_registers *m, float x, float *y)
{
    m->level = followed(s->rising, s->falling, m->level, x);
    int loud = m->level > s->factor.factor;
    if (loud)
        m->counter = (uint64_t)((s->hold * 0.001f) * s->rate);
    else if (m->counter > 0)
        m->counter--;
    m->quiet = loud ? 0 : m->quiet + (m->quiet < UINT32_MAX);
    int open = loud || m->counter > 0;
    float target = open ? 1 : 0;
    m->state = settled(toward(target > m->state ? s->opening : s->closing, m->state, target));
    *y = settled(x * gain(s->ratio, m->state));
    return open;
}
