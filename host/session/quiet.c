/* The longest quiet stretch, by the library alone, which says which samples are loud. A recording has fewer
 * samples than its quiet count can tell, so that never stops here. */
#include "quiet.h"

#include <string.h>

static uint64_t length(const struct span *p)
{
    return p->to - p->from;
}

/* Of each sample of a done block whether it is loud: a gate that holds for no sample aims open at those alone. */
static const uint8_t *loud_in(hoofglaze_gate g, const float *input, size_t samples)
{
    static float unheard[BLOCK];
    static uint8_t loud[BLOCK];
    g.registers.counter = 0;
    g = hoofglaze_gate_set_hold(g, 0).gate;
    hoofglaze_gate_record(g, input, samples, unheard, samples, loud, samples);
    return loud;
}

/* The stretches that a loud sample of the block ends. Of those as long the first is kept. */
static void ended(struct quiet *q, uint64_t at, const uint8_t *loud, size_t samples)
{
    uint64_t from = at - q->now;
    const uint8_t *next = loud;
    while ((next = memchr(next, 1, samples - (size_t)(next - loud))) != 0) {
        struct span p = {from, at + (uint64_t)(next - loud)};
        if (length(&p) > length(&q->longest))
            q->longest = p;
        from = p.to + 1;
        next++;
    }
}

/* The count has grown by the block unless a sample of it is loud; a stretch that ended in it is no longer then
 * than what lies before the latest such. */
void quiet_heard(struct quiet *q, const hoofglaze_gate *before, uint64_t at, const float *input, size_t samples,
                 uint32_t told)
{
    uint64_t grown = q->now + samples;
    if (told < grown && grown - told - 1 > length(&q->longest))
        ended(q, at, loud_in(*before, input, samples), samples);
    q->now = told;
}

void quiet_ends(struct quiet *q, uint64_t samples)
{
    if (q->now > length(&q->longest))
        q->longest = (struct span){samples - q->now, samples};
}
