/* The gate's and the equaliser's settings: what the library takes, and the worked numbers that it is given,
 * by the formulas of hoofglaze.h, in double. */
#include "settings.h"

#include <math.h>
#include <stdlib.h>
#include <string.h>

#include "steps/worked.h"
#include "words.h"

const struct setting settings[SETTINGS] = {
    [THRESHOLD] = {"threshold", DECIBELS, "-80 to 0 dB", -40},
    [RATIO] = {"ratio", PLAIN, "1 to 100", 10},
    [ATTACK] = {"attack", TIME, "0.1 to 100 ms", 1},
    [RELEASE] = {"release", TIME, "1 to 1,000 ms", 100},
    [HOLD] = {"hold", TIME, "0 to 500 ms", 100},
};

/* Of which a value's range is asked: it is the same at every rate. */
enum { ANY_RATE = 48000 };

const char *unit_words(enum unit unit)
{
    return unit == DECIBELS ? " dB" : unit == TIME ? " ms" : "";
}

/* ---- the gate */

static float worked(int setting, float value, uint32_t rate)
{
    if (setting == THRESHOLD)
        return (float)pow(10, (double)value / 20);
    return setting == ATTACK || setting == RELEASE ? smoothing(rate, value) : 0;
}

static hoofglaze_gate gate_at_rest(uint32_t rate)
{
    hoofglaze_gate_answered a = hoofglaze_gate_make((float)rate, smoothing(rate, 0.1), smoothing(rate, 10));
    if (a.answer.number)
        stop(FAILED, "the library makes no gate at %u Hz: it answers %u", (unsigned)rate,
             (unsigned)a.answer.number);
    return a.gate;
}

static hoofglaze_gate_answered with(hoofglaze_gate g, int setting, float value, uint32_t rate)
{
    const char *name = settings[setting].name;
    return hoofglaze_gate_set(g, (const uint8_t *)name, strlen(name), value, worked(setting, value, rate));
}

int takes_value(int setting, float value)
{
    return with(gate_at_rest(ANY_RATE), setting, value, ANY_RATE).answer.number == 0;
}

void set_gate(struct run *r, uint32_t rate)
{
    r->gate = gate_at_rest(rate);
    for (int i = 0; i < SETTINGS; i++) {
        float value = r->values.of[i];
        hoofglaze_gate_answered a = with(r->gate, i, value, rate);
        if (a.answer.number)
            stop(FAILED, "the library refuses %s %g: it answers %u", settings[i].name, (double)value,
                 (unsigned)a.answer.number);
        r->gate = a.gate;
        if (i == HOLD)
            r->hold = (hoofglaze_truncation){a.answer.samples, a.answer.word};
    }
}

int is_cut(hoofglaze_truncation hold)
{
    return hold.word != HOOFGLAZE_EXACT;
}

const char *hold_word(hoofglaze_truncation hold)
{
    return is_cut(hold) ? "cut" : "exact";
}

const char cut_means[] = "cut: (hold*0.001)*rate as float had a fraction";

void write_hold(FILE *to, const struct run *r)
{
    fprintf(to, "hold %g ms (%s sample%s, %s)", (double)r->gate.settings.hold, thousands(r->hold.whole),
            plural(r->hold.whole), hold_word(r->hold));
}

/* ---- the equaliser */

int centre(int band)
{
    static const int centres[BANDS] = {25,   40,   63,   100,  160,  250,   400,   630,
                                       1000, 1600, 2500, 4000, 6300, 10000, 16000, 20000};
    return centres[band];
}

static hoofglaze_eq_numbers peaking(int band, double decibels, double rate)
{
    double highest = 0.499 * rate, f = centre(band) < highest ? centre(band) : highest;
    double w = 2 * 3.14159265358979323846 * f / rate, size = pow(10, decibels / 40);
    double alpha = sin(w) * sinh(0.69314718055994530942 / 2 * 10 / 16 * w / sin(w));
    double a0 = 1 + alpha / size;
    return (hoofglaze_eq_numbers){
        .b0 = (1 + alpha * size) / a0,
        .b1 = -2 * cos(w) / a0,
        .b2 = (1 - alpha * size) / a0,
        .a1 = -2 * cos(w) / a0,
        .a2 = (1 - alpha / size) / a0,
    };
}

static hoofglaze_eq flat(uint32_t rate)
{
    hoofglaze_eq_answered a = hoofglaze_eq_make((float)rate);
    if (a.answer.number)
        stop(FAILED, "the library makes no equaliser at %u Hz: it answers %u", (unsigned)rate,
             (unsigned)a.answer.number);
    return a.equaliser;
}

static hoofglaze_eq_answered with_band(hoofglaze_eq e, int band, float decibels, uint32_t rate)
{
    hoofglaze_decibels value = {decibels};
    return hoofglaze_eq_set_band(e, (size_t)band, value, peaking(band, decibels, rate));
}

int takes_band(float decibels)
{
    return with_band(flat(ANY_RATE), 0, decibels, ANY_RATE).answer.number == 0;
}

int band_named(const char *name, size_t bytes)
{
    if (hoofglaze_eq_read(flat(ANY_RATE), (const uint8_t *)name, bytes).number)
        return -1;
    return (int)strtoul(name + strlen("band_"), 0, 10);
}

hoofglaze_eq equaliser_with(const struct equaliser *e, uint32_t rate)
{
    hoofglaze_eq made = flat(rate);
    for (int i = 0; i < BANDS; i++) {
        if (!e->is_set[i])
            continue;
        hoofglaze_eq_answered a = with_band(made, i, e->decibels[i], rate);
        if (a.answer.number)
            stop(FAILED, "the library refuses band_%d %g: it answers %u", i, (double)e->decibels[i],
                 (unsigned)a.answer.number);
        made = a.equaliser;
    }
    return made;
}
