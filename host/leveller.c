/* Checks of the leveller's settings: its layout, making, setting by name and typed, reading, each refusal with
 * what it leaves, and states that 9 refuses. */
#include "leveller.h"

#define HUNDRED 0x42c80000u
#define THOUSAND 0x447a0000u
#define TENTH 0x3dcccccdu
#define MINUS_EIGHTY 0xc2a00000u

static void layout(void)
{
    static const size_t given[] = {
        sizeof(hoofglaze_leveller_settings), offsetof(hoofglaze_leveller_settings, rate),
        offsetof(hoofglaze_leveller_settings, threshold), offsetof(hoofglaze_leveller_settings, factor),
        offsetof(hoofglaze_leveller_settings, ratio), offsetof(hoofglaze_leveller_settings, attack),
        offsetof(hoofglaze_leveller_settings, rising), offsetof(hoofglaze_leveller_settings, release),
        offsetof(hoofglaze_leveller_settings, falling), offsetof(hoofglaze_leveller_settings, makeup),
        sizeof(hoofglaze_leveller_registers), offsetof(hoofglaze_leveller_registers, level),
        sizeof(hoofglaze_leveller), offsetof(hoofglaze_leveller, settings),
        offsetof(hoofglaze_leveller, registers), sizeof(hoofglaze_leveller_answered),
        offsetof(hoofglaze_leveller_answered, leveller), offsetof(hoofglaze_leveller_answered, answer)};
    static const size_t said[] = {36, 0, 4, 8, 12, 16, 20, 24, 28, 32, 4, 0, 40, 0, 36, 80, 0, 40};
    group("leveller: sizes and offsets, with nothing in between");
    for (int i = 0; i < COUNT(said); i++)
        check("layout", given[i], said[i], i, 0, 0);
}

/* ---- making: 5, 4 */

static const uint32_t bad_smoothing[] = {ONE,     SIGN + 1, SIGN + ONE,   INFINITE, SIGN + INFINITE,
                                         QUIET32, ODD_NAN,  INFINITE + 1, TWO};

static void check_make(uint32_t rate, uint32_t rising, uint32_t falling, uint32_t number)
{
    uint32_t made[NUMBERS] = {rate, 0, ONE, ONE, ONE, rising, HUNDRED, falling, ONE, 0}, none[NUMBERS] = {0};
    hoofglaze_leveller_answered a =
        hoofglaze_leveller_make(float_of(rate), float_of(rising), float_of(falling));
    check_call(&leveller, "leveller_make", a.answer, &a.leveller, number, number == 0 ? made : none);
    for (int i = 0; i < NAMED; i++) {
        const char *name = leveller_settings[i].name;
        check_answer("leveller_read", leveller.read(&a.leveller, name, strlen(name)), number == 0 ? 0 : 9, 0,
                     0, number == 0 ? made[leveller_settings[i].place] : 0);
    }
}

static void makings(void)
{
    group("leveller: making, refused by 5, then 4; and read");
    for (int i = 0; i < GOOD_RATES + BAD_RATES; i++) {
        int fair = i < GOOD_RATES;
        uint32_t rate = fair ? bytes32(good_rate[i]) : bad_rate[i - GOOD_RATES];
        for (int j = 0; j < SMOOTHINGS; j++) {
            check_make(rate, good_smoothing[j], good_smoothing[SMOOTHINGS - 1 - j], fair ? 0 : 5);
            for (int k = 0; k < COUNT(bad_smoothing); k++) {
                check_make(rate, good_smoothing[j], bad_smoothing[k], fair ? 4 : 5);
                check_make(rate, bad_smoothing[k], good_smoothing[j], fair ? 4 : 5);
                check_make(rate, bad_smoothing[k], bad_smoothing[j], fair ? 4 : 5);
            }
        }
    }
}

/* ---- settings: 9, 1, 3, 4 */

/* Each setting's value and worked number at their ends and next to them, and what another stage would take. */
static const uint32_t values[] = {
    0, SIGN, 1, SIGN + 1, ONE, ONE - 1, ONE + 1, TWO, TWO - 1, TWO + 1, FOUR, FOUR - 1, FOUR + 1, HALF,
    0x3fc00000 /* 1.5 */, 0x40400000 /* 3 */, 0x41000000 /* 8 */, 0x41200000 /* 10 */, 0x41a00000 /* 20 */,
    SIXTY_FOUR, TENTH, TENTH - 1, HUNDRED, HUNDRED + 1, THOUSAND, THOUSAND + 1, MINUS_EIGHTY,
    MINUS_EIGHTY + 1, MINUS_EIGHTY - 1, SIGN + ONE, SIGN + TWO, SIGN + FOUR, SIGN + HUNDRED, INFINITE - 1,
    INFINITE, SIGN + INFINITE, QUIET32, ODD_NAN, INFINITE + 1};
static const uint32_t worked[] = {0,         SIGN,      1,        LEAST_FACTOR,    LEAST_FACTOR - 1,
                                  HALF,      BELOW_ONE, ONE,      ONE + 1,         SIGN + 1,
                                  SIGN + ONE, TWO,      INFINITE, SIGN + INFINITE, QUIET32,
                                  ODD_NAN};

static void check_set(const hoofglaze_leveller *l, int i, uint32_t value, uint32_t beside)
{
    const struct leveller_setting *n = &leveller_settings[i];
    float v = float_of(value), w = float_of(beside);
    int fair = leveller_takes(n->place, v), good = n->worked < 0 || leveller_takes(n->worked, w);
    uint32_t number = !fair ? 3 : !good ? 4 : 0;
    hoofglaze_leveller said = *l, a = *l, b = *l;
    if (number == 0) {
        leveller.put(&said, n->place, value);
        if (n->worked >= 0)
            leveller.put(&said, n->worked, beside);
    }
    check_call(&leveller, "leveller_set", leveller_set(&a, i, v, w), &a, number, &said);
    check_call(&leveller, "typed setting", leveller_set_typed(&b, i, v, w), &b, number, &said);
    check_answer("leveller_read", leveller.read(&a, n->name, strlen(n->name)), 0, 0, 0,
                 (uint32_t)leveller.number(&said, n->place));
}

static void settings(void)
{
    group("leveller: settings, refused by 3, then 4; by name, typed; and read");
    for (int i = 0; i < NAMED; i++)
        for (int j = 0; j < COUNT(values); j++)
            for (int k = 0; k < COUNT(worked); k++) {
                hoofglaze_leveller l;
                leveller.draw(&l);
                check_set(&l, i, values[j], worked[k]);
            }
    for (int i = 0; i < NAMED; i++)
        for (int j = 0; j < NANS; j++) {
            hoofglaze_leveller l;
            uint32_t nan = (uint32_t)nan_bits(SIGN, INFINITE, j);
            leveller.draw(&l);
            check_set(&l, i, nan, HALF);
            check_set(&l, i, ONE, nan);
            check_set(&l, i, 0, nan);
            check_set(&l, i, nan, nan);
        }
}

static const char *const strange[] = {"threshold ", "",       "t",       "threshol", "Threshold", "ratio\n",
                                      "ratios",     "rati",   "attac",   "Attack",   "releasf",   "release_",
                                      "makeu",      "makeups", "Makeup", "make-up",  " makeup",   "hold",
                                      "bass",       "band_0", "attackrelease"};

static void strange_names(void)
{
    group("leveller: a name that is no setting, refused by 1 before 3 and 4");
    check_strange_names(&leveller, strange, COUNT(strange));
}

/* ---- 9: one number at a time that couldn't have been set, made or reached */

/* Every call but a block, with arguments that are good, and with such as it would refuse. */
static void check_bad_leveller(hoofglaze_leveller l)
{
    hoofglaze_leveller a = l;
    float nan = float_of(ODD_NAN);
    for (int i = 0; i < NAMED; i++) {
        const char *name = leveller_settings[i].name;
        float good = i == 0 ? -1.0f : 1.0f;
        check_call(&leveller, "leveller_set", leveller_set(&a, i, good, 0.5f), &a, 9, &l);
        check_call(&leveller, "leveller_set", leveller_set(&a, i, nan, nan), &a, 9, &l);
        check_call(&leveller, "typed setting", leveller_set_typed(&a, i, good, 0.5f), &a, 9, &l);
        check_call(&leveller, "typed setting", leveller_set_typed(&a, i, nan, nan), &a, 9, &l);
        check_answer("leveller_read", leveller.read(&a, name, strlen(name)), 9, 0, 0, 0);
    }
    check_bad_state(&leveller, &l, "makeup");
}

/* A state with this number is accepted by each call, or refused by each. */
static void check_number(const hoofglaze_leveller *l, int place, uint32_t bits)
{
    hoofglaze_leveller a = *l;
    leveller.put(&a, place, bits);
    if (!leveller_takes(place, float_of(bits))) {
        check_bad_leveller(a);
        return;
    }
    check_good_number(&leveller, l, place, bits);
    for (int i = 0; i < NAMED; i++) {
        check_set(&a, i, i == 0 ? SIGN : ONE, HALF);
        check_set(&a, i, ODD_NAN, HALF);
    }
    check_done(&leveller, &a, 0);
    check_done(&leveller, &a, 2);
}

static void bad_states(void)
{
    static const uint32_t levels[] = {0,   SIGN,       1,        SIGN + 1,       0x007fffff, SIGN + 0x007fffff,
                                      ONE, SIGN + ONE, BELOW_ONE, SIXTY_FOUR - 1, SIXTY_FOUR, SIXTY_FOUR + 1,
                                      0x42820000 /* 65 */, SIGN + SIXTY_FOUR, INFINITE - 1};
    hoofglaze_leveller l;
    group("leveller: states refused by 9, and those at their bounds");
    quiet_input();
    for (int i = 0; i < NUMBERS; i++) {
        leveller.draw(&l);
        for (int j = 0; j < COUNT(values); j++)
            check_number(&l, i, values[j]);
        for (int j = 0; j < COUNT(worked); j++)
            check_number(&l, i, worked[j]);
        for (int j = 0; j < COUNT(levels); j++)
            check_number(&l, i, levels[j]);
    }
    for (int i = 0; i < BAD_RATES; i++)
        check_number(&l, RATE, bad_rate[i]);
    for (int i = 0; i < GOOD_RATES; i++)
        check_number(&l, RATE, bytes32(good_rate[i]));
    check_bad_leveller(hoofglaze_leveller_make(0, 0, 0).leveller);
    check_bad_leveller(hoofglaze_leveller_make(48000, 0, 1).leveller);
}

/* 9 refuses each, before a sample that 6 refuses too, and every bit is handed back. */
static void odd_numbers(void)
{
    hoofglaze_leveller l;
    group(leveller.groups[2]);
    input[1] = float_of(ODD_NAN);
    for (int i = 0; i < NUMBERS; i++)
        for (int j = 0; j < NANS + 2; j++) {
            uint64_t odd = j < 2 ? INFINITE + (j ? SIGN : 0) : nan_bits(SIGN, INFINITE, j - 2);
            leveller.draw(&l);
            check_bad_number(&leveller, &l, leveller_settings[j % NAMED].name, i, odd);
        }
}

void leveller_checks(void)
{
    layout();
    makings();
    settings();
    strange_names();
    bad_states();
    odd_numbers();
    leveller_block_checks();
    leveller_lent_checks();
}
