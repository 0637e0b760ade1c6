/* The equaliser as a stage: its numbers, its calls, document 01's step, and states to take it on. */
#include <math.h>

#include "eq.h"
#include "steps/eq.h"

/* ---- the numbers of a state */

static void *place_of(const void *state, int i, size_t *bytes)
{
    hoofglaze_eq *e = (hoofglaze_eq *)state;
    *bytes = 8;
    if (i >= SETTINGS)
        return (double *)&e->registers + (i - SETTINGS);
    hoofglaze_eq_band *band = &e->settings.bands[(i - 1) / 6 % BANDS];
    if (i > 0 && (i - 1) % 6 > 0)
        return (double *)&band->numbers + ((i - 1) % 6 - 1);
    *bytes = 4;
    return i == 0 ? (void *)&e->settings.rate : &band->value;
}

static uint64_t number(const void *state, int i)
{
    uint64_t bits = 0;
    size_t bytes;
    const void *place = place_of(state, i, &bytes);
    memcpy(&bits, place, bytes);
    return bits;
}

static void put(void *state, int i, uint64_t bits)
{
    size_t bytes;
    void *place = place_of(state, i, &bytes);
    memcpy(place, &bits, bytes);
}

const hoofglaze_eq_numbers unity = {1, 0, 0, 0, 0}, plain = {1.25, -1.5, 0.5, -1.5, 0.75};

/* ---- the calls, on a state where it lies */

static hoofglaze_answer keep(void *state, hoofglaze_eq_answered a)
{
    *(hoofglaze_eq *)state = a.equaliser;
    return a.answer;
}

hoofglaze_answer eq_set(hoofglaze_eq *e, const char *name, size_t bytes, float value,
                             hoofglaze_eq_numbers worked)
{
    return keep(e, hoofglaze_eq_set(*e, (const uint8_t *)name, bytes, (hoofglaze_decibels){value}, worked));
}

static hoofglaze_answer set(void *state, const char *name, size_t bytes, float value)
{
    return eq_set(state, name, bytes, value, plain);
}

hoofglaze_answer eq_set_band(hoofglaze_eq *e, size_t band, float value, hoofglaze_eq_numbers worked)
{
    return keep(e, hoofglaze_eq_set_band(*e, band, (hoofglaze_decibels){value}, worked));
}

static hoofglaze_answer typed(void *state, int band, float value)
{
    return eq_set_band(state, band, value, plain);
}

static hoofglaze_answer read(const void *state, const char *name, size_t bytes)
{
    return hoofglaze_eq_read(*(const hoofglaze_eq *)state, (const uint8_t *)name, bytes);
}

static hoofglaze_answer reset(void *state)
{
    return keep(state, hoofglaze_eq_reset(*(hoofglaze_eq *)state));
}

static hoofglaze_answer block(void *state, const float *from, size_t n, float *to, size_t m)
{
    return keep(state, hoofglaze_eq_block(*(hoofglaze_eq *)state, from, n, to, m));
}

/* ---- document 01's step, and states to take it on */

static float step(void *state, float x)
{
    return eq_step(state, x);
}

static double unit(void)
{
    return (double)(drawn() >> 11) * 0x1p-53;
}

hoofglaze_eq_numbers drawn_numbers(void)
{
    double radius = 0.2 + 0.79 * unit(), a1 = -2 * radius * (2 * unit() - 1), a2 = radius * radius;
    return (hoofglaze_eq_numbers){0.5 + unit(), a1 * unit(), a2 * unit(), a1, a2};
}

int is_unity(float value)
{
    return fabs((double)value) < 1e-6;
}

static void draw(void *state)
{
    static const float small[] = {0, -0.0f, 1e-7f, -1e-7f};
    hoofglaze_eq *e = state;
    memset(e, 0, sizeof *e);
    e->settings.rate = good_rate[drawn() % GOOD_RATES];
    for (int i = 0; i < BANDS; i++) {
        float value = drawn() % 4 ? (float)(24 * unit() - 12) : small[drawn() % 4];
        e->settings.bands[i].value.decibels = value;
        e->settings.bands[i].numbers = is_unity(value) ? unity : drawn_numbers();
        e->registers.bands[i] = (hoofglaze_eq_delay){unit(), -unit(), unit(), -unit()};
    }
}

const struct stage equaliser = {
    {"eq: blocks refused by 7, 8, 6", "eq: blocks against the formulas",
     "eq: NaNs and infinities in registers", "eq: a kept state handed back works on"},
    sizeof(hoofglaze_eq), SETTINGS, REGISTERS, 1, number, put, set, typed, read, reset, block, draw, step,
};
