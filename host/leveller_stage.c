/* The leveller as a stage: its numbers, its calls, document 02's step, and states to take it on. */
#include "leveller.h"

#include "steps/leveller.h"

const struct leveller_setting leveller_settings[NAMED] = {
    {"threshold", THRESHOLD, FACTOR}, {"ratio", RATIO, -1},   {"attack", ATTACK, RISING},
    {"release", RELEASE, FALLING},    {"makeup", MAKEUP, -1},
};

const uint32_t good_smoothing[SMOOTHINGS] = {0, SIGN, 1, HALF, BELOW_ONE};
const uint32_t good_ratio[RATIOS] = {ONE, TWO, FOUR};

int leveller_takes(int place, float x)
{
    switch (place) {
    case RATE:
        return x >= 8000 && x <= 192000 && x == (float)(int)x;
    case THRESHOLD:
        return x >= -80 && x <= 0;
    case FACTOR:
        return x >= 0x1p-14f && x <= 1;
    case RATIO:
        return x == 1 || x == 2 || x == 4;
    case ATTACK:
        return x >= 0.1f && x <= 100;
    case RELEASE:
        return x >= 1 && x <= 1000;
    case MAKEUP:
        return x >= 0 && x <= 4;
    case LEVEL:
        return x >= 0 && x <= 64;
    default:
        return x >= 0 && x < 1;
    }
}

/* ---- the numbers of a state, each of 32 bits, in their order */

static uint64_t number(const void *state, int i)
{
    uint32_t bits;
    memcpy(&bits, (const char *)state + 4 * i, sizeof bits);
    return bits;
}

static void put(void *state, int i, uint64_t bits)
{
    uint32_t n = (uint32_t)bits;
    memcpy((char *)state + 4 * i, &n, sizeof n);
}

/* ---- the calls, on a state where it lies */

static hoofglaze_answer keep(void *state, hoofglaze_leveller_answered a)
{
    *(hoofglaze_leveller *)state = a.leveller;
    return a.answer;
}

static hoofglaze_answer set_to(void *state, const char *name, size_t bytes, float value, float worked)
{
    return keep(state, hoofglaze_leveller_set(*(hoofglaze_leveller *)state, (const uint8_t *)name, bytes,
                                              value, worked));
}

/* The worked number is no better than the value. */
static hoofglaze_answer set(void *state, const char *name, size_t bytes, float value)
{
    return set_to(state, name, bytes, value, value);
}

hoofglaze_answer leveller_set(hoofglaze_leveller *l, int i, float value, float worked)
{
    const char *name = leveller_settings[i].name;
    return set_to(l, name, strlen(name), value, worked);
}

hoofglaze_answer leveller_set_typed(hoofglaze_leveller *l, int i, float value, float worked)
{
    switch (i) {
    case 0:
        return keep(l, hoofglaze_leveller_set_threshold(*l, (hoofglaze_decibels){value},
                                                        (hoofglaze_factor){worked}));
    case 1:
        return keep(l, hoofglaze_leveller_set_ratio(*l, value));
    case 2:
        return keep(l, hoofglaze_leveller_set_attack(*l, value, worked));
    case 3:
        return keep(l, hoofglaze_leveller_set_release(*l, value, worked));
    default:
        return keep(l, hoofglaze_leveller_set_makeup(*l, (hoofglaze_factor){value}));
    }
}

static hoofglaze_answer typed(void *state, int i, float value)
{
    return leveller_set_typed(state, i, value, value);
}

static hoofglaze_answer read(const void *state, const char *name, size_t bytes)
{
    return hoofglaze_leveller_read(*(const hoofglaze_leveller *)state, (const uint8_t *)name, bytes);
}

static hoofglaze_answer reset(void *state)
{
    return keep(state, hoofglaze_leveller_reset(*(hoofglaze_leveller *)state));
}

static hoofglaze_answer block(void *state, const float *from, size_t n, float *to, size_t m)
{
    return keep(state, hoofglaze_leveller_block(*(hoofglaze_leveller *)state, from, n, to, m));
}

/* ---- document 02's step, and states to take it on */

static float step(void *state, float x)
{
    hoofglaze_leveller *l = state;
    return leveller_step(&l->settings, &l->registers, x);
}

static uint32_t smoothing(void)
{
    return drawn() % 4 ? between(HALF, BELOW_ONE) : good_smoothing[drawn() % SMOOTHINGS];
}

static void draw(void *state)
{
    static const uint32_t makeups[] = {0, SIGN, 1, ONE, FOUR}, levels[] = {0, SIGN, 1, ONE, SIXTY_FOUR};
    static const uint32_t decibels[] = {0, SIGN, SIGN + 1, 0xc2a00000};
    hoofglaze_leveller *l = state;
    l->settings.rate = good_rate[drawn() % GOOD_RATES];
    put(l, THRESHOLD, decibels[drawn() % COUNT(decibels)]);
    put(l, FACTOR, drawn() % 4 ? between(LEAST_FACTOR, ONE) : drawn() % 2 ? LEAST_FACTOR : ONE);
    put(l, RATIO, good_ratio[drawn() % RATIOS]);
    put(l, ATTACK, between(0x3dcccccd, 0x42c80000));
    put(l, RISING, smoothing());
    put(l, RELEASE, between(ONE, 0x447a0000));
    put(l, FALLING, smoothing());
    put(l, MAKEUP, drawn() % 2 ? between(HALF, FOUR) : makeups[drawn() % COUNT(makeups)]);
    put(l, LEVEL, drawn() % 2 ? between(0x38000000, SIXTY_FOUR) : levels[drawn() % COUNT(levels)]);
}

const struct stage leveller = {
    {"leveller: blocks refused by 7, 8, 6", "leveller: blocks against the formulas",
     "leveller: NaNs and infinities in each number", "leveller: a signal cut anywhere"},
    sizeof(hoofglaze_leveller), SETTINGS, REGISTERS, 0, number, put, set, typed, read, reset, block, draw, step,
};
