/* Checks of the equaliser: its layout, making, bands by name and by index, each refusal with what it
 * leaves, names of every kind, blocks bit for bit and the NaNs of registers. */
#include "eq.h"

#define ONE64 0x3ff0000000000000u
#define SIGN64 0x8000000000000000u
#define INFINITE64 0x7ff0000000000000u
/* the last float that is below 1e-6 as double */
#define LAST_UNITY 0x358637bdu

static void layout(void)
{
    static const size_t given[] = {
        sizeof(hoofglaze_eq_numbers), offsetof(hoofglaze_eq_numbers, b0), offsetof(hoofglaze_eq_numbers, b1),
        offsetof(hoofglaze_eq_numbers, b2), offsetof(hoofglaze_eq_numbers, a1),
        offsetof(hoofglaze_eq_numbers, a2), sizeof(hoofglaze_eq_band), offsetof(hoofglaze_eq_band, numbers),
        sizeof(hoofglaze_eq_settings), offsetof(hoofglaze_eq_settings, bands), sizeof(hoofglaze_eq_delay),
        offsetof(hoofglaze_eq_delay, x2), offsetof(hoofglaze_eq_delay, y1), offsetof(hoofglaze_eq_delay, y2),
        sizeof(hoofglaze_eq_registers), sizeof(hoofglaze_eq), offsetof(hoofglaze_eq, registers),
        sizeof(hoofglaze_eq_answered), offsetof(hoofglaze_eq_answered, answer)};
    static const size_t said[] = {40, 0, 8,  16, 24,  32,   48,  8,    776, 8,
                                  32, 8, 16, 24, 512, 1288, 776, 1328, 1288};
    group("eq: sizes and offsets");
    for (int i = 0; i < COUNT(said); i++)
        check("layout", given[i], said[i], i, 0, 0);
}

/* ---- making: 5 */

static void makings(void)
{
    group("eq: making, refused by 5");
    for (int i = 0; i < GOOD_RATES + BAD_RATES; i++) {
        int fair = i < GOOD_RATES;
        float rate = fair ? good_rate[i] : float_of(bad_rate[i - GOOD_RATES]);
        hoofglaze_eq said;
        memset(&said, 0, sizeof said);
        for (int j = 0; fair && j < BANDS; j++)
            said.settings.bands[j].numbers = unity;
        said.settings.rate = fair ? rate : 0;
        hoofglaze_eq_answered a = hoofglaze_eq_make(rate);
        check_call(&equaliser, "eq_make", a.answer, &a.equaliser, fair ? 0 : 5, &said);
    }
}

/* ---- settings: 9, 1, 2, 3, 4 */

static int are_finite(hoofglaze_eq_numbers w)
{
    const double numbers[] = {w.b0, w.b1, w.b2, w.a1, w.a2};
    int finite = 0;
    for (int i = 0; i < 5; i++)
        finite += (bytes64(numbers[i]) & INFINITE64) != INFINITE64;
    return finite == 5;
}

/* A band, by one of its names and by its index. */
static void check_set(const hoofglaze_eq *e, const char *name, size_t band, uint32_t value,
                      hoofglaze_eq_numbers worked)
{
    float v = float_of(value);
    uint32_t number = band >= BANDS                  ? 2
                      : !(v >= -12 && v <= 12)       ? 3
                      : !are_finite(worked)           ? 4
                                                     : 0;
    hoofglaze_eq said = *e, a = *e, b = *e;
    if (number == 0) {
        hoofglaze_eq_band *to = &said.settings.bands[band];
        if (is_unity(v) || (to->numbers.b1 == 0 && to->numbers.a1 == 0))
            memset(&said.registers.bands[band], 0, sizeof said.registers.bands[band]);
        to->value.decibels = v;
        to->numbers = is_unity(v) ? unity : worked;
    }
    hoofglaze_answer given = eq_set(&a, name, strlen(name), v, worked);
    check_call(&equaliser, "eq_set", given, &a, number, &said);
    check_call(&equaliser, "eq_set_band", eq_set_band(&b, band, v, worked), &b, number, &said);
    uint32_t kept = number == 2 ? 0 : bytes32(said.settings.bands[band].value.decibels);
    check_answer("eq_read", equaliser.read(&a, name, strlen(name)), number == 2 ? 2 : 0, 0, 0, kept);
}

/* Registers hold odd bits, which a setting either zeroes or leaves. */
static hoofglaze_eq ringing(void)
{
    hoofglaze_eq e;
    equaliser.draw(&e);
    for (int i = 0; i < REGISTERS; i++)
        equaliser.put(&e, SETTINGS + i, i % 3 ? nan_bits(SIGN64, INFINITE64, i) : drawn());
    return e;
}

static const char *const names[] = {"band_0", "band_+1", "band_02", "band_+00000000000000000000000000003",
                                    "band_4", "band_000000000000000000005", "band_6", "band_+07", "band_8",
                                    "band_9", "band_10", "band_+11", "band_012", "band_13", "band_14",
                                    "band_15"};
static const struct {
    const char *name;
    size_t band;
} beyond[] = {{"band_16", 16}, {"band_+016", 16}, {"band_99", 99}, {"band_4294967296", 1ull << 32},
              {"band_18446744073709551615", UINT64_MAX}, {"band_0018446744073709551615", UINT64_MAX}};

static void settings(void)
{
    static const uint32_t values[] = {0, SIGN, LAST_UNITY, LAST_UNITY + 1, SIGN + LAST_UNITY,
                                      SIGN + LAST_UNITY + 1, 1, 0x40400000, 0x41400000, 0xc1400000,
                                      0x413fffff, 0x41400001, 0xc1400001, INFINITE, SIGN + INFINITE,
                                      QUIET32, ODD_NAN, INFINITE + 1};
    static const uint64_t bits[] = {0, SIGN64, 1, ONE64, INFINITE64 - 1, INFINITE64, SIGN64 + INFINITE64,
                                    QUIET64, INFINITE64 + 1, SIGN64 + INFINITE64 + 5};
    group("eq: bands by name and by index, refused by 2, 3, 4; and read");
    for (int band = 0; band < BANDS; band++)
        for (int i = 0; i < COUNT(values); i++) {
            hoofglaze_eq e = ringing();
            check_set(&e, names[band], band, values[i], drawn_numbers());
            for (int j = 0; j < 5; j++) {
                hoofglaze_eq_numbers worked = plain;
                uint64_t wanted = bits[(band + i + j) % COUNT(bits)];
                memcpy((double *)&worked + j, &wanted, sizeof wanted);
                check_set(&e, names[band], band, values[i], worked);
            }
            /* b1 and a1 zeros of either sign, both or only one */
            for (int j = 0; j < 4 && !is_unity(e.settings.bands[band].value.decibels); j++) {
                e.settings.bands[band].numbers.b1 = j == 3 ? 0.5 : j % 2 ? -0.0 : 0;
                e.settings.bands[band].numbers.a1 = j == 2 ? 0.5 : -0.0;
                check_set(&e, names[band], band, values[i], plain);
            }
        }
    for (int i = 0; i < COUNT(beyond); i++) {
        hoofglaze_eq e = ringing();
        check_set(&e, beyond[i].name, beyond[i].band, 0x40400000, plain);
        hoofglaze_eq_numbers bad = {double_of(QUIET64), 0, 0, 0, 0};
        check_set(&e, beyond[i].name, beyond[i].band, ODD_NAN, bad);
    }
}

static const char *const strange[] = {
    "band_", "", "band", "band_+", "band_-", "band_-0", "band_-3", "band_++3", "band_+-3", "band_3+",
    "band_ 3", "band_3 ", "band_+ 3", "band_3a", "band_0x3", "band_3.0", "band__3", "Band_3", "band-3", "3",
    "bass",
    "band_\xd9\xa3", "band_\xff", "band_/", "band_:", "band_18446744073709551616",
    "band_+18446744073709551616", "band_0000018446744073709551616", "band_99999999999999999999",
    "band_340282366920938463463374607431768211456", "band_340282366920938463463374607431768211459"};

static void strange_names(void)
{
    group("eq: a name that is no band, refused by 1 before 2, 3 and 4");
    check_strange_names(&equaliser, strange, COUNT(strange));
}

/* ---- 9 */

static void bad_states(void)
{
    static const uint64_t not_finite[] = {INFINITE64, SIGN64 + INFINITE64, QUIET64, INFINITE64 + 1};
    static const uint32_t values[] = {0x41400001, 0xc1400001, INFINITE, SIGN + INFINITE, QUIET32, ODD_NAN};
    static const uint32_t unities[] = {0, SIGN, LAST_UNITY, SIGN + LAST_UNITY};
    group("eq: states refused by 9, and those at their bounds");
    hoofglaze_eq e = ringing();
    quiet_input();
    for (int i = 0; i < BAD_RATES; i++)
        check_bad_number(&equaliser, &e, "band_3", 0, bad_rate[i]);
    for (int band = 0; band < BANDS; band++) {
        int value = 1 + 6 * band;
        equaliser.put(&e, value, 0x40400000);
        e.settings.bands[band].numbers = plain;
        check_good_number(&equaliser, &e, value, band % 2 ? 0x41400000 : 0xc1400000);
        check_good_number(&equaliser, &e, value, band % 2 ? LAST_UNITY + 1 : SIGN + LAST_UNITY + 1);
        for (int i = 0; i < COUNT(values); i++)
            check_bad_number(&equaliser, &e, "band_3", value, values[i]);
        for (int i = 1; i <= 5; i++) {
            check_bad_number(&equaliser, &e, "band_3", value + i, not_finite[(band + i) % 4]);
            check_good_number(&equaliser, &e, value + i, band % 2 ? INFINITE64 - 1 : SIGN64);
        }
        /* a unity band holds 1 and four +0, to the bit */
        e.settings.bands[band].numbers = unity;
        for (int i = 0; i < 4; i++)
            check_good_number(&equaliser, &e, value, unities[i]);
        equaliser.put(&e, value, unities[band % 4]);
        for (int i = 2; i <= 5; i++) {
            check_bad_number(&equaliser, &e, "band_3", value + i, SIGN64);
            check_bad_number(&equaliser, &e, "band_3", value + i, 1);
        }
        check_bad_number(&equaliser, &e, "band_3", value + 1, ONE64 + 1);
        check_bad_number(&equaliser, &e, "band_3", value + 1, 0);
    }
    e = hoofglaze_eq_make(0).equaliser;
    check_bad_state(&equaliser, &e, "band_3");
}

static void known_answers(void)
{
    static const uint32_t answers[KNOWN] = {0x3f900000, 0x3f4e6666, 0xbe4b3333, 0xbe64b852, 0xbe8511ec,
                                            0x428f7268, 0xc262865f, 0xc191d9e9, 0xc0ba42eb, 0xc05289d9};
    static const hoofglaze_eq_numbers other = {0.9, -0.3, 0.1, -0.25, 0.2};
    group("eq: the Rust's answers");
    hoofglaze_eq e = hoofglaze_eq_make(48000).equaliser;
    eq_set(&e, "band_3", 6, 6, plain);
    eq_set_band(&e, 9, -3, other);
    check_known(&equaliser, &e, answers);
}

void eq_checks(void)
{
    layout();
    known_answers();
    makings();
    settings();
    strange_names();
    bad_states();
    check_blocks(&equaliser);
}
