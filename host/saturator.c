/* Checks of the multiband saturator: its layout, making, settings by name and typed, each refusal with
 * what it leaves, levels around the border, blocks bit for bit and the NaNs of registers. */
#include "saturator.h"

/* 0.0001, above which a band's gain is made up */
#define BORDER 0x38d1b717u

#define PLACE(type, member) (offsetof(type, member) / 4)

static void layout(void)
{
    static const size_t given[] = {
        sizeof(hoofglaze_saturator_numbers), sizeof(hoofglaze_saturator_crossover),
        offsetof(hoofglaze_saturator_crossover, highpass), sizeof(hoofglaze_saturator_settings),
        PLACE(hoofglaze_saturator_settings, drives.low), PLACE(hoofglaze_saturator_settings, drives.mid),
        PLACE(hoofglaze_saturator_settings, drives.high), PLACE(hoofglaze_saturator_settings, levels.low),
        PLACE(hoofglaze_saturator_settings, levels.mid), PLACE(hoofglaze_saturator_settings, levels.high),
        PLACE(hoofglaze_saturator_settings, frequencies.low),
        PLACE(hoofglaze_saturator_settings, frequencies.high),
        PLACE(hoofglaze_saturator_settings, low), PLACE(hoofglaze_saturator_settings, high),
        PLACE(hoofglaze_saturator_settings, attack), PLACE(hoofglaze_saturator_settings, release),
        PLACE(hoofglaze_saturator_settings, blocker), sizeof(hoofglaze_saturator_filter),
        sizeof(hoofglaze_saturator_band), sizeof(hoofglaze_saturator_registers),
        PLACE(hoofglaze_saturator_registers, side), PLACE(hoofglaze_saturator_registers, mid),
        PLACE(hoofglaze_saturator_registers, high), PLACE(hoofglaze_saturator_registers, lowpass),
        PLACE(hoofglaze_saturator_registers, highpass), PLACE(hoofglaze_saturator_registers, lows),
        PLACE(hoofglaze_saturator_registers, mids), PLACE(hoofglaze_saturator_registers, highs),
        sizeof(hoofglaze_saturator), PLACE(hoofglaze_saturator, registers),
        sizeof(hoofglaze_saturator_answered), offsetof(hoofglaze_saturator_answered, answer)};
    static const size_t said[] = {20, 40, 20, 128, 1,  2,  3,   4, 5,  6,  7,  8,  9,  19, 29,  30,
                                  31, 32, 12, 228, 8,  16, 24,  32, 40, 48, 51, 54, 356, 32, 400, 360};
    group("saturator: sizes and offsets");
    for (int i = 0; i < COUNT(said); i++)
        check("layout", given[i], said[i], i, 0, 0);
}

/* Worked numbers that are refused, and some that are accepted. */
static const uint32_t bad_c[] = {ONE, SIGN + 1, SIGN + ONE, INFINITE, SIGN + INFINITE, QUIET32, ODD_NAN};
static const uint32_t good_c[] = {0, SIGN, 1, HALF, BELOW_ONE};
static const uint32_t finite[] = {0, SIGN, 1, INFINITE - 1, SIGN + INFINITE - 1};

/* ---- making: 5, 4 */

/* A making of these settings, all else as made. */
static void check_make(hoofglaze_saturator_settings s, uint32_t number)
{
    static const float made[NAMED] = {0, 0, 0, 1, 1, 1, 200, 2000};
    hoofglaze_saturator said;
    memset(&said, 0, sizeof said);
    if (number == 0) {
        said.settings = s;
        memcpy((char *)&said + 4 * SETTING, made, sizeof made);
    }
    hoofglaze_saturator_answered a =
        hoofglaze_saturator_make(s.rate, s.low, s.high, s.attack, s.release, s.blocker);
    check_call(&saturator, "saturator_make", a.answer, &a.saturator, number, &said);
}

static void makings(void)
{
    group("saturator: making, refused by 5, then 4");
    for (int i = 0; i < GOOD_RATES + BAD_RATES; i++) {
        int fair = i < GOOD_RATES;
        hoofglaze_saturator s = ringing_saturator(), t;
        s.settings.rate = fair ? good_rate[i] : float_of(bad_rate[i - GOOD_RATES]);
        check_make(s.settings, fair ? 0 : 5);
        for (int j = CROSSOVER; j < SETTINGS; j++)
            for (int k = 0; k < 5; k++) {
                t = s;
                saturator.put(&t, j, j < C ? odd[k] : bad_c[(j + k) % COUNT(bad_c)]);
                check_make(t.settings, fair ? 4 : 5);
                saturator.put(&t, j, j < C ? finite[k] : good_c[k]);
                check_make(t.settings, fair ? 0 : 5);
            }
    }
}

/* ---- settings: 9, 1, 3, 4 */

static int are_finite(hoofglaze_saturator_crossover w)
{
    uint32_t bits[10];
    int count = 0;
    memcpy(bits, &w, sizeof bits);
    for (int i = 0; i < 10; i++)
        count += (bits[i] & INFINITE) != INFINITE;
    return count == 10;
}

static void check_set(const hoofglaze_saturator *s, int i, uint32_t value,
                      hoofglaze_saturator_crossover worked)
{
    float v = float_of(value);
    int frequency = SETTING + i >= LOW;
    uint32_t number = !(v >= ranges[i].lowest && v <= ranges[i].highest) ? 3
                      : frequency && !are_finite(worked)               ? 4
                                                                       : 0;
    hoofglaze_saturator said = *s, a = *s, b = *s;
    if (number == 0) {
        saturator.put(&said, SETTING + i, value);
        if (frequency)
            *(SETTING + i == LOW ? &said.settings.low : &said.settings.high) = worked;
    }
    size_t bytes = strlen(ranges[i].name);
    hoofglaze_answer given = saturator_set(&a, ranges[i].name, bytes, v, worked);
    check_call(&saturator, "saturator_set", given, &a, number, &said);
    given = saturator_set_typed(&b, i, v, worked);
    check_call(&saturator, "typed setting", given, &b, number, &said);
    check_answer("saturator_read", saturator.read(&a, ranges[i].name, bytes), 0, 0, 0,
                 (uint32_t)saturator.number(&said, SETTING + i));
}

static void settings(void)
{
    group("saturator: settings, refused by 3, then 4; by name, typed; and read");
    for (int i = 0; i < NAMED; i++) {
        uint32_t low = bytes32(ranges[i].lowest), high = bytes32(ranges[i].highest);
        uint32_t values[] = {low, high, low + 1, high - 1, high + 1, low ? low - 1 : SIGN + 1, SIGN, HALF,
                             ODD_NAN, QUIET32, INFINITE, SIGN + INFINITE, INFINITE + 1, SIGN + high};
        for (int j = 0; j < COUNT(values); j++)
            for (int k = 0; k < 10; k++) {
                hoofglaze_saturator s = ringing_saturator();
                hoofglaze_saturator_crossover worked = drawn_crossover();
                check_set(&s, i, values[j], worked);
                memcpy((char *)&worked + 4 * k, &odd[(j + k) % ODD], 4);
                check_set(&s, i, values[j], worked);
                memcpy((char *)&worked + 4 * k, &finite[(j + k) % COUNT(finite)], 4);
                check_set(&s, i, values[j], worked);
            }
    }
}

static const char *const strange[] = {"low_driv", "", "low", "low_drive ", " low_drive", "Low_drive",
                                      "low_drivf", "mid_freq", "mid_levels", "high_leve", "high_freq_",
                                      "low-freq", "drive", "band_0", "bass"};

static void strange_names(void)
{
    group("saturator: a name that is no setting, refused by 1 before 3 and 4");
    check_strange_names(&saturator, strange, COUNT(strange));
}

/* ---- 9 */

static void bad_states(void)
{
    group("saturator: states refused by 9, and those at their bounds");
    hoofglaze_saturator s = ringing_saturator();
    quiet_input();
    for (int i = 0; i < BAD_RATES; i++)
        check_bad_number(&saturator, &s, "mid_level", RATE, bad_rate[i]);
    for (int i = 0; i < NAMED; i++) {
        uint32_t low = bytes32(ranges[i].lowest), high = bytes32(ranges[i].highest);
        check_good_number(&saturator, &s, SETTING + i, low);
        check_good_number(&saturator, &s, SETTING + i, low ? low + 1 : SIGN);
        check_good_number(&saturator, &s, SETTING + i, high);
        check_bad_number(&saturator, &s, "mid_level", SETTING + i, low ? low - 1 : SIGN + 1);
        check_bad_number(&saturator, &s, "mid_level", SETTING + i, high + 1);
        for (int j = 0; j < ODD; j++)
            check_bad_number(&saturator, &s, "mid_level", SETTING + i, odd[j]);
    }
    for (int i = CROSSOVER; i < C; i++)
        for (int j = 0; j < 5; j++) {
            check_good_number(&saturator, &s, i, finite[j]);
            check_bad_number(&saturator, &s, "mid_level", i, odd[j]);
        }
    for (int i = C; i < SETTINGS; i++) {
        for (int j = 0; j < COUNT(good_c); j++)
            check_good_number(&saturator, &s, i, good_c[j]);
        for (int j = 0; j < COUNT(bad_c); j++)
            check_bad_number(&saturator, &s, "mid_level", i, bad_c[j]);
    }
    hoofglaze_saturator_crossover none = s.settings.low;
    s = hoofglaze_saturator_make(0, none, none, 0, 0, 0).saturator;
    check_bad_state(&saturator, &s, "mid_level");
}

/* Open filters and followers, through which a sample is each band's level. */
static void levels_at_the_border(void)
{
    static const hoofglaze_saturator_numbers open = {1, 0, 0, 0, 0};
    group("saturator: levels at 0.0001 and next to it");
    hoofglaze_saturator_crossover through = {open, open};
    hoofglaze_saturator said = hoofglaze_saturator_make(48000, through, through, 0, 0, 0.5f).saturator;
    for (int i = 0; i < NAMED - 2; i++)
        saturator.put(&said, SETTING + i, HALF);
    /* the low band has twice the sample */
    for (int i = 0; i < 28; i++) {
        uint32_t size = (i / 14 ? BORDER : BORDER - 0x00800000) + (uint32_t)(i / 2 % 7) - 3;
        hoofglaze_saturator a = said;
        input[0] = float_of(size + (i % 2 ? SIGN : 0));
        check_answer("block", saturator.block(&a, input, 1, output, 1), 0, 0, 0, 0);
        check("block's output", bytes32(output[0]), bytes32(saturator.step(&said, input[0])), size, i, 0);
        check_state(&saturator, "block's state", &a, &said);
    }
}

static void known_answers(void)
{
    static const uint32_t answers[KNOWN] = {0x3f7d1f85, 0x3f9a89c3, 0x3fec993b, 0x3dbf4230, 0xbf15b6a2,
                                            0x40fe1d14, 0xbf8d77d0, 0x4188b177, 0xc1006e0a, 0xc17963f4};
    static const hoofglaze_saturator_crossover low = {{0.25f, 0.5f, 0.25f, -0.5f, 0.125f},
                                                      {0.75f, -1.5f, 0.75f, -1.25f, 0.5f}};
    static const float values[] = {0.2f, 0.5f, 1, 1.5f, 0.5f, 2};
    group("saturator: the Rust's answers");
    hoofglaze_saturator_crossover high = {low.highpass, low.lowpass};
    hoofglaze_saturator s = hoofglaze_saturator_make(44100, low, high, 0.5f, 0.9f, 0.995f).saturator;
    for (int i = 0; i < COUNT(values); i++)
        saturator_set_typed(&s, i, values[i], low);
    check_known(&saturator, &s, answers);
}

void saturator_checks(void)
{
    layout();
    known_answers();
    makings();
    settings();
    strange_names();
    bad_states();
    levels_at_the_border();
    check_blocks(&saturator);
}
