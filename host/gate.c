/* Checks of the noise gate's settings: its layout, making, setting by name, typed and in place, reading,
 * each refusal with what it leaves. */
#include "gate.h"

static void layout(void)
{
    static const size_t given[] = {
        sizeof(hoofglaze_decibels), sizeof(hoofglaze_factor), sizeof(hoofglaze_gate_settings),
        offsetof(hoofglaze_gate_settings, rate), offsetof(hoofglaze_gate_settings, threshold),
        offsetof(hoofglaze_gate_settings, factor), offsetof(hoofglaze_gate_settings, ratio),
        offsetof(hoofglaze_gate_settings, attack), offsetof(hoofglaze_gate_settings, opening),
        offsetof(hoofglaze_gate_settings, release), offsetof(hoofglaze_gate_settings, closing),
        offsetof(hoofglaze_gate_settings, hold), offsetof(hoofglaze_gate_settings, rising),
        offsetof(hoofglaze_gate_settings, falling), sizeof(hoofglaze_gate_registers),
        offsetof(hoofglaze_gate_registers, level), offsetof(hoofglaze_gate_registers, state),
        offsetof(hoofglaze_gate_registers, counter), offsetof(hoofglaze_gate_registers, quiet),
        sizeof(hoofglaze_gate), offsetof(hoofglaze_gate, registers), sizeof(hoofglaze_gate_answered),
        offsetof(hoofglaze_gate_answered, answer), sizeof(hoofglaze_gate_registers_before),
        offsetof(hoofglaze_gate_registers_before, level), offsetof(hoofglaze_gate_registers_before, state),
        offsetof(hoofglaze_gate_registers_before, counter), sizeof(hoofglaze_gate_before),
        offsetof(hoofglaze_gate_before, settings), offsetof(hoofglaze_gate_before, registers)};
    static const size_t said[] = {4,  4,  44, 0,  4,  8,  12,  16, 20, 24, 28, 32, 36, 40, 24,
                                  0,  4,  8,  16, 72, 48, 112, 72, 16, 0,  4,  8,  64, 0,  48};
    group("gate: sizes and offsets");
    for (size_t i = 0; i < sizeof said / sizeof said[0]; i++)
        check("layout", given[i], said[i], i, 0, 0);
}

uint32_t setting(const hoofglaze_gate *g, int i)
{
    uint32_t n;
    memcpy(&n, (const char *)&g->settings + 4 * i, sizeof n);
    return n;
}

hoofglaze_gate with_setting(hoofglaze_gate g, int i, uint32_t bits)
{
    memcpy((char *)&g.settings + 4 * i, &bits, sizeof bits);
    return g;
}

void check_gate(const char *call, const hoofglaze_gate *given, const hoofglaze_gate *said)
{
    for (int i = 0; i < SETTINGS; i++)
        check(call, setting(given, i), setting(said, i), i, 0, 0);
    check(call, bytes32(given->registers.level), bytes32(said->registers.level), 11, 0, 0);
    check(call, bytes32(given->registers.state), bytes32(said->registers.state), 12, 0, 0);
    check(call, given->registers.counter, said->registers.counter, 13, 0, 0);
    check(call, given->registers.quiet, said->registers.quiet, 14, 0, 0);
}

void check_told(const char *call, hoofglaze_gate_answered given, uint32_t number, hoofglaze_gate said)
{
    check_answer(call, given.answer, number, 0, 0, 0);
    check_gate(call, &given.gate, &said);
}

hoofglaze_truncation held(float hold, float rate)
{
    float product = (hold * 0.001f) * rate;
    uint64_t whole = (uint64_t)product;
    return (hoofglaze_truncation){whole, (double)whole == (double)product ? HOOFGLAZE_EXACT : HOOFGLAZE_CUT};
}

void check_told_hold(const char *call, hoofglaze_gate_answered given, hoofglaze_gate said)
{
    check_hold_answer(call, given.answer, held(said.settings.hold, said.settings.rate));
    check_gate(call, &given.gate, &said);
}

hoofglaze_gate made(float rate, float rising, float falling)
{
    return hoofglaze_gate_make(rate, rising, falling).gate;
}

/* ---- making: 5, 4 */

#define MADE_HOLD 0x42c80000u /* 100 ms */

static void check_make(uint32_t rate, uint32_t rising, uint32_t falling, uint32_t number)
{
    hoofglaze_gate said;
    memset(&said, 0, sizeof said);
    if (number == 0) {
        uint32_t bits[SETTINGS] = {rate, 0, ONE, 0x41200000, ONE, 0, 0x42c80000, 0, MADE_HOLD,
                                   rising, falling};
        memcpy(&said.settings, bits, sizeof bits);
    }
    check_told("gate_make", hoofglaze_gate_make(float_of(rate), float_of(rising), float_of(falling)),
               number, said);
}

static const uint32_t good_c[] = {0, SIGN, 1, 0x3f000000, BELOW_ONE};
static const uint32_t bad_c[] = {ONE, SIGN + 1, SIGN + ONE, INFINITE, SIGN + INFINITE, QUIET32, ODD_NAN,
                                 INFINITE + 1};

static void makings(void)
{
    group("gate: making, refused by 5, then 4");
    for (int i = 0; i < COUNT(good_rate) + COUNT(bad_rate); i++) {
        int fair = i < COUNT(good_rate);
        uint32_t rate = fair ? bytes32(good_rate[i]) : bad_rate[i - COUNT(good_rate)];
        for (int j = 0; j < COUNT(good_c); j++) {
            check_make(rate, good_c[j], good_c[COUNT(good_c) - 1 - j], fair ? 0 : 5);
            for (int k = 0; k < COUNT(bad_c); k++) {
                check_make(rate, good_c[j], bad_c[k], fair ? 4 : 5);
                check_make(rate, bad_c[k], good_c[j], fair ? 4 : 5);
                check_make(rate, bad_c[k], bad_c[j], fair ? 4 : 5);
            }
        }
    }
}

/* ---- settings: 9, 1, 3, 4 */

const struct named named[NAMED] = {
    {"threshold", 1, 2, -80, 0}, {"ratio", 3, -1, 1, 100},  {"attack", 4, 5, 0.1f, 100},
    {"release", 6, 7, 1, 1000},  {"hold", 8, -1, 0, 500},
};

static int takes(const struct named *n, float worked)
{
    return n->worked < 0    ? 1
           : n->worked == 2 ? worked >= 0x1p-14f && worked <= 1
                            : worked >= 0 && worked < 1;
}

hoofglaze_gate_answered set_typed(hoofglaze_gate g, int i, float value, float worked)
{
    switch (i) {
    case 0:
        return hoofglaze_gate_set_threshold(g, (hoofglaze_decibels){value}, (hoofglaze_factor){worked});
    case 1:
        return hoofglaze_gate_set_ratio(g, value);
    case 2:
        return hoofglaze_gate_set_attack(g, value, worked);
    case 3:
        return hoofglaze_gate_set_release(g, value, worked);
    default:
        return hoofglaze_gate_set_hold(g, value);
    }
}

hoofglaze_gate_answered set_in_place(hoofglaze_gate g, const char *name, size_t bytes, float value,
                                     float worked)
{
    hoofglaze_gate_answered a = {.gate = g};
    a.answer = hoofglaze_gate_set_in_place(&a.gate, (const uint8_t *)name, bytes, value, worked);
    return a;
}

static void check_setting(const char *call, hoofglaze_gate_answered given, int i, uint32_t number,
                          hoofglaze_gate said)
{
    if (i == HOLD && number == 0)
        check_told_hold(call, given, said);
    else
        check_told(call, given, number, said);
}

static void check_set(hoofglaze_gate g, int i, uint32_t value, uint32_t worked)
{
    const struct named *n = &named[i];
    float v = float_of(value), w = float_of(worked);
    uint32_t number = !(v >= n->lowest && v <= n->highest) ? 3 : !takes(n, w) ? 4 : 0;
    hoofglaze_gate said = g;
    if (number == 0) {
        said = with_setting(said, n->place, value);
        if (n->worked >= 0)
            said = with_setting(said, n->worked, worked);
    }
    const uint8_t *name = (const uint8_t *)n->name;
    size_t bytes = strlen(n->name);
    check_setting("gate_set", hoofglaze_gate_set(g, name, bytes, v, w), i, number, said);
    check_setting("gate_set_in_place", set_in_place(g, n->name, bytes, v, w), i, number, said);
    check_setting("typed setting", set_typed(g, i, v, w), i, number, said);
    check_answer("gate_read", hoofglaze_gate_read(said, name, bytes), 0, 0, 0, setting(&said, n->place));
}

/* The next float up or down in size. */
static uint32_t next(float x, int up)
{
    return bytes32(x) + (up ? 1 : -1);
}

static void settings(void)
{
    group("gate: settings, refused by 3, then 4; by name, in place, typed; and read");
    hoofglaze_gate g = made(48000, 0.5f, 0.75f);
    g.registers = (hoofglaze_gate_registers){3.5f, 0.25f, 77, 4100};
    for (int i = 0; i < NAMED; i++) {
        const struct named *n = &named[i];
        uint32_t values[] = {bytes32(n->lowest), bytes32(n->highest), bytes32((n->lowest + n->highest) / 2),
                             next(n->highest, 1), n->lowest == 0 ? SIGN + 1 : next(n->lowest, n->lowest < 0),
                             n->highest == 0 ? 1 : next(n->highest, 0), 0, SIGN, INFINITE, SIGN + INFINITE,
                             QUIET32, ODD_NAN, INFINITE + 1};
        uint32_t worked[] = {0, SIGN, 1, 0x38800000, 0x387fffff, 0x3f000000, BELOW_ONE, ONE, ONE + 1,
                             SIGN + 1, INFINITE, SIGN + INFINITE, QUIET32, ODD_NAN};
        for (int j = 0; j < COUNT(values); j++)
            for (int k = 0; k < COUNT(worked); k++)
                check_set(g, i, values[j], worked[k]);
    }
}

static const char *const strange[] = {"", "t", "hol", "holds", "Hold", "hold ", " hold", "threshol",
                                      "thresholds", "ratio\n", "Attack", "releasf", "band_0",
                                      "attackrelease"};

static void strange_names(void)
{
    group("gate: a name that is no setting, refused by 1 before 3 and 4");
    hoofglaze_gate g = made(44100, 0, 0);
    g.registers = (hoofglaze_gate_registers){64, 1, 96000, UINT32_MAX};
    for (int i = 0; i <= COUNT(strange); i++) {
        /* the last name has a byte 0 in it */
        const char *name = i < COUNT(strange) ? strange[i] : "hold";
        size_t bytes = i < COUNT(strange) ? strlen(name) : 5;
        float odd = float_of(i % 2 ? ODD_NAN : ONE);
        check_told("gate_set", hoofglaze_gate_set(g, (const uint8_t *)name, bytes, odd, odd), 1, g);
        check_told("gate_set_in_place", set_in_place(g, name, bytes, odd, odd), 1, g);
        check_answer("gate_read", hoofglaze_gate_read(g, (const uint8_t *)name, bytes), 1, 0, 0, 0);
    }
}

void gate_checks(void)
{
    layout();
    makings();
    settings();
    strange_names();
    gate_block_checks();
}
