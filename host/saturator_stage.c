/* The saturator as a stage: its numbers, its calls, document 01's step, and states to take it on. */
#include "saturator.h"
#include "steps/saturator.h"

const struct range ranges[NAMED] = {
    {"low_drive", 0, 1}, {"mid_drive", 0, 1},  {"high_drive", 0, 1},  {"low_level", 0, 2},
    {"mid_level", 0, 2}, {"high_level", 0, 2}, {"low_freq", 50, 500}, {"high_freq", 1000, 6000},
};

/* ---- the numbers of a state, each of 32 bits, in their order */

static uint64_t number(const void *state, int i)
{
    uint32_t bits;
    memcpy(&bits, (const char *)state + 4 * i, sizeof bits);
    return bits;
}

static void put(void *state, int i, uint64_t bits)
{
    uint32_t n = (uint32_t)bits;
    memcpy((char *)state + 4 * i, &n, sizeof n);
}

/* ---- the calls, on a state where it lies */

static hoofglaze_answer keep(void *state, hoofglaze_saturator_answered a)
{
    *(hoofglaze_saturator *)state = a.saturator;
    return a.answer;
}

hoofglaze_answer saturator_set(hoofglaze_saturator *s, const char *name, size_t bytes, float value,
                             hoofglaze_saturator_crossover worked)
{
    return keep(s, hoofglaze_saturator_set(*s, (const uint8_t *)name, bytes, value, worked));
}

static hoofglaze_answer set(void *state, const char *name, size_t bytes, float value)
{
    return saturator_set(state, name, bytes, value, drawn_crossover());
}

hoofglaze_answer saturator_set_typed(hoofglaze_saturator *s, int i, float value,
                                     hoofglaze_saturator_crossover worked)
{
    switch (i) {
    case 0:
        return keep(s, hoofglaze_saturator_set_low_drive(*s, value));
    case 1:
        return keep(s, hoofglaze_saturator_set_mid_drive(*s, value));
    case 2:
        return keep(s, hoofglaze_saturator_set_high_drive(*s, value));
    case 3:
        return keep(s, hoofglaze_saturator_set_low_level(*s, value));
    case 4:
        return keep(s, hoofglaze_saturator_set_mid_level(*s, value));
    case 5:
        return keep(s, hoofglaze_saturator_set_high_level(*s, value));
    case 6:
        return keep(s, hoofglaze_saturator_set_low_freq(*s, value, worked));
    default:
        return keep(s, hoofglaze_saturator_set_high_freq(*s, value, worked));
    }
}

static hoofglaze_answer typed(void *state, int i, float value)
{
    return saturator_set_typed(state, i, value, drawn_crossover());
}

static hoofglaze_answer read(const void *state, const char *name, size_t bytes)
{
    return hoofglaze_saturator_read(*(const hoofglaze_saturator *)state, (const uint8_t *)name, bytes);
}

static hoofglaze_answer reset(void *state)
{
    return keep(state, hoofglaze_saturator_reset(*(hoofglaze_saturator *)state));
}

static hoofglaze_answer block(void *state, const float *from, size_t n, float *to, size_t m)
{
    return keep(state, hoofglaze_saturator_block(*(hoofglaze_saturator *)state, from, n, to, m));
}

/* ---- document 01's step, and states to take it on */

static float step(void *state, float x)
{
    hoofglaze_saturator *s = state;
    return saturator_step(&s->settings, &s->registers, x);
}

/* Two poles inside the circle. */
static hoofglaze_saturator_numbers drawn_filter(void)
{
    float radius = float_of(between(0x3e800000, 0x3f7c0000));
    float a1 = -2 * radius * float_of(between(0x3d000000, ONE)), a2 = radius * radius;
    float b0 = float_of(between(0x3d000000, HALF));
    return (hoofglaze_saturator_numbers){b0, drawn() % 2 ? 2 * b0 : -2 * b0, b0, a1, a2};
}

hoofglaze_saturator_crossover drawn_crossover(void)
{
    hoofglaze_saturator_numbers lowpass = drawn_filter();
    return (hoofglaze_saturator_crossover){lowpass, drawn_filter()};
}

static void draw(void *state)
{
    hoofglaze_saturator *s = state;
    memset(s, 0, sizeof *s);
    s->settings.rate = good_rate[drawn() % GOOD_RATES];
    for (int i = 0; i < NAMED; i++) {
        uint32_t ends[] = {bytes32(ranges[i].lowest), bytes32(ranges[i].highest)};
        put(s, SETTING + i, drawn() % 4 ? between(ends[0], ends[1]) : ends[drawn() % 2]);
    }
    s->settings.low = drawn_crossover();
    s->settings.high = drawn_crossover();
    for (int i = C; i < SETTINGS; i++)
        put(s, i, drawn() % 4 ? between(HALF, BELOW_ONE) : 0);
    for (int i = SETTINGS; i < SETTINGS + REGISTERS; i++)
        put(s, i, between(0x38000000, HALF) + (drawn() & SIGN));
}

hoofglaze_saturator ringing_saturator(void)
{
    hoofglaze_saturator s;
    draw(&s);
    for (int i = SETTINGS; i < SETTINGS + REGISTERS; i++)
        put(&s, i, nan_bits(SIGN, INFINITE, (int)(drawn() % NANS)));
    return s;
}

const struct stage saturator = {
    {"saturator: blocks refused by 7, 8, 6", "saturator: blocks against the formulas",
     "saturator: NaNs and infinities in registers", "saturator: a kept state handed back works on"},
    sizeof(hoofglaze_saturator), SETTINGS, REGISTERS, 0, number, put, set, typed, read, reset, block,
    draw, step,
};
