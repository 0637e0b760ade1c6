/* The equaliser's sample: through the sixteen bands in double, then one rounding to float. */
#include "common.h"

static inline double band_step(const hoofglaze_eq_numbers *n, hoofglaze_eq_delay *d, double x)
{
    double y = settled64(fma64(n->b0, x, fma64(n->b1, d->x1, n->b2 * d->x2)) -
                         fma64(n->a1, d->y1, n->a2 * d->y2));
    *d = (hoofglaze_eq_delay){x, settled64(d->x1), y, settled64(d->y1)};
    return y;
}

static inline float eq_step(hoofglaze_eq *e, float x)
{
    double y = x;
    for (int i = 0; i < 16; i++)
        y = band_step(&e->settings.bands[i].numbers, &e->registers.bands[i], y);
    return settled((float)y);
}
