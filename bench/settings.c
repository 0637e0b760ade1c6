/* The settings that the rows run with, and their worked numbers, at 48,000 Hz: as the Rust works them
 * out, in double. */
#include "settings.h"

#include "steps/worked.h"

static const double pi = 3.14159265358979323846;

hoofglaze_gate a_gate(void)
{
    hoofglaze_gate g = hoofglaze_gate_make(RATE, smoothing(RATE, 0.1), smoothing(RATE, 10)).gate;
    g.settings.threshold.decibels = -40;
    g.settings.factor.factor = 0.01f;
    g.settings.attack = 1;
    g.settings.opening = smoothing(RATE, 1);
    g.settings.release = 10;
    g.settings.closing = smoothing(RATE, 10);
    g.settings.hold = 10;
    g.registers.state = 1;
    return g;
}

/* ---- equaliser */

static hoofglaze_eq_numbers peaking(double centre, double decibels)
{
    double w = 2 * pi * centre / RATE, size = pow(10, decibels / 40);
    double alpha = sin(w) * sinh(0.69314718055994531 / 2 * (10.0 / 16) * w / sin(w)), a0 = 1 + alpha / size;
    return (hoofglaze_eq_numbers){(1 + alpha * size) / a0, -2 * cos(w) / a0, (1 - alpha * size) / a0,
                                  -2 * cos(w) / a0, (1 - alpha / size) / a0};
}

hoofglaze_eq an_equaliser(void)
{
    static const double centres[] = {25,   40,   63,   100,  160,  250,   400,   630,
                                     1000, 1600, 2500, 4000, 6300, 10000, 16000, 20000};
    hoofglaze_eq e = hoofglaze_eq_make(RATE).equaliser;
    for (int i = 0; i < 16; i++) {
        float decibels = i % 2 ? -(float)i / 2 : (float)(1 + i) / 2;
        e.settings.bands[i].value.decibels = decibels;
        e.settings.bands[i].numbers = peaking(centres[i], decibels);
    }
    return e;
}

/* ---- tone stack */

hoofglaze_tone a_tone_stack(void)
{
    hoofglaze_tone t = hoofglaze_tone_make_british(RATE).tone;
    t.settings.bass = 1.5f;
    t.settings.mid = 0.75f;
    t.settings.treble = 1.25f;
    t.settings.presence = 1.5f;
    t.settings.factor.factor = (float)pow(10, (1.5 - 1) * 6 / 20);
    return t;
}

/* ---- saturator */

/* A crossover's low-pass and high-pass. */
static hoofglaze_saturator_crossover crossover(double corner)
{
    double w = 2 * pi * corner / RATE, alpha = sin(w) / sqrt(2), a0 = 1 + alpha;
    double low = (1 - cos(w)) / 2 / a0, high = (1 + cos(w)) / 2 / a0, a1 = -2 * cos(w) / a0;
    double a2 = (1 - alpha) / a0;
    return (hoofglaze_saturator_crossover){{low, 2 * low, low, a1, a2}, {high, -2 * high, high, a1, a2}};
}

hoofglaze_saturator a_saturator(void)
{
    float attack = smoothing(RATE, 1), release = smoothing(RATE, 50), blocker = blocking(RATE, 15);
    hoofglaze_saturator s = hoofglaze_saturator_make(RATE, crossover(200), crossover(2000), attack, release,
                                                     blocker).saturator;
    s.settings.drives = (hoofglaze_saturator_bands){0.5f, 0.75f, 0.25f};
    s.settings.levels = (hoofglaze_saturator_bands){1.25f, 1, 0.75f};
    return s;
}

/* ---- leveller */

hoofglaze_leveller a_leveller(float ratio)
{
    hoofglaze_leveller l = hoofglaze_leveller_make(RATE, smoothing(RATE, 1), smoothing(RATE, 100)).leveller;
    l.settings.threshold.decibels = -40;
    l.settings.factor.factor = 0.01f;
    l.settings.ratio = ratio;
    l.settings.makeup.factor = 2.5f;
    return l;
}
