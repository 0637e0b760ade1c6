/* Checks of the tone stack: its layout, making each model, controls by name and typed, each refusal with
 * what it leaves, blocks bit for bit and the NaNs of registers. */
#include "stage.h"
#include "steps/tone.h"

enum { MODELS = 4, CONTROLS = 4, REGISTERS = 4 };

/* The places of a state's numbers, the registers behind them. */
enum { RATE, MODEL, CONTROL, FACTOR = CONTROL + CONTROLS, SETTINGS };

static const char *const names[CONTROLS] = {"bass", "mid", "treble", "presence"};

static void layout(void)
{
    static const size_t given[] = {
        sizeof(hoofglaze_tone_settings), offsetof(hoofglaze_tone_settings, rate),
        offsetof(hoofglaze_tone_settings, model), offsetof(hoofglaze_tone_settings, bass),
        offsetof(hoofglaze_tone_settings, mid), offsetof(hoofglaze_tone_settings, treble),
        offsetof(hoofglaze_tone_settings, presence), offsetof(hoofglaze_tone_settings, factor),
        sizeof(hoofglaze_tone_registers), offsetof(hoofglaze_tone_registers, dc),
        offsetof(hoofglaze_tone_registers, bass), offsetof(hoofglaze_tone_registers, treble),
        offsetof(hoofglaze_tone_registers, presence), sizeof(hoofglaze_tone),
        offsetof(hoofglaze_tone, registers), sizeof(hoofglaze_tone_answered),
        offsetof(hoofglaze_tone_answered, answer)};
    static const size_t said[] = {28, 0, 4, 8, 12, 16, 20, 24, 16, 0, 4, 8, 12, 44, 28, 88, 48};
    group("tonestack: sizes and offsets");
    for (int i = 0; i < COUNT(said); i++)
        check("layout", given[i], said[i], i, 0, 0);
}

/* ---- the numbers of a state, each of 32 bits, in their order */

static uint64_t number(const void *state, int i)
{
    uint32_t bits;
    memcpy(&bits, (const char *)state + 4 * i, sizeof bits);
    return bits;
}

static void put(void *state, int i, uint64_t bits)
{
    uint32_t n = (uint32_t)bits;
    memcpy((char *)state + 4 * i, &n, sizeof n);
}

/* ---- the calls, on a state where it lies */

static hoofglaze_answer keep(void *state, hoofglaze_tone_answered a)
{
    *(hoofglaze_tone *)state = a.tone;
    return a.answer;
}

static hoofglaze_tone_answered make(int model, float rate)
{
    return model == 0   ? hoofglaze_tone_make_modern(rate)
           : model == 1 ? hoofglaze_tone_make_british(rate)
           : model == 2 ? hoofglaze_tone_make_american(rate)
                        : hoofglaze_tone_make_flat(rate);
}

static hoofglaze_answer set_to(void *state, const char *name, size_t bytes, float value, float worked)
{
    return keep(state, hoofglaze_tone_set(*(hoofglaze_tone *)state, (const uint8_t *)name, bytes, value,
                                          worked));
}

static hoofglaze_answer set(void *state, const char *name, size_t bytes, float value)
{
    return set_to(state, name, bytes, value, 1);
}

static hoofglaze_answer typed_to(void *state, int i, float value, float worked)
{
    hoofglaze_tone t = *(hoofglaze_tone *)state;
    return keep(state, i == 0   ? hoofglaze_tone_set_bass(t, value)
                       : i == 1 ? hoofglaze_tone_set_mid(t, value)
                       : i == 2 ? hoofglaze_tone_set_treble(t, value)
                                : hoofglaze_tone_set_presence(t, value, (hoofglaze_factor){worked}));
}

static hoofglaze_answer typed(void *state, int i, float value)
{
    return typed_to(state, i, value, 1);
}

static hoofglaze_answer read(const void *state, const char *name, size_t bytes)
{
    return hoofglaze_tone_read(*(const hoofglaze_tone *)state, (const uint8_t *)name, bytes);
}

static hoofglaze_answer reset(void *state)
{
    return keep(state, hoofglaze_tone_reset(*(hoofglaze_tone *)state));
}

static hoofglaze_answer block(void *state, const float *from, size_t n, float *to, size_t m)
{
    return keep(state, hoofglaze_tone_block(*(hoofglaze_tone *)state, from, n, to, m));
}

/* ---- document 01's step, and states to take it on */

static float step(void *state, float x)
{
    hoofglaze_tone *t = state;
    return tone_step(&t->settings, alphas(&t->settings), &t->registers, x);
}

static void draw(void *state)
{
    static const uint32_t controls[] = {0, SIGN, 1, TWO, ONE, 0x3a83126f, 0x3a83126e, 0x3a831270};
    memset(state, 0, sizeof(hoofglaze_tone));
    put(state, RATE, bytes32(good_rate[drawn() % GOOD_RATES]));
    put(state, MODEL, drawn() % MODELS);
    for (int i = 0; i < CONTROLS; i++)
        put(state, CONTROL + i,
            drawn() % 2 ? between(0x3d000000, TWO) : controls[drawn() % COUNT(controls)]);
    put(state, FACTOR, between(HALF, TWO));
    for (int i = 0; i < REGISTERS; i++)
        put(state, SETTINGS + i, between(0x3d000000, ONE) + (drawn() & SIGN));
}

static const struct stage stage = {
    {"tonestack: blocks refused by 7, 8, 6", "tonestack: blocks against the formulas",
     "tonestack: NaNs and infinities in registers", "tonestack: a kept state handed back works on"},
    sizeof(hoofglaze_tone), SETTINGS, REGISTERS, 0, number, put, set, typed, read, reset, block, draw, step,
};

/* ---- making: 5 */

static void makings(void)
{
    group("tonestack: making each model, refused by 5");
    for (int i = 0; i < GOOD_RATES + BAD_RATES; i++)
        for (int model = 0; model < MODELS; model++) {
            int fair = i < GOOD_RATES;
            uint32_t rate = fair ? bytes32(good_rate[i]) : bad_rate[i - GOOD_RATES];
            uint32_t said[SETTINGS + REGISTERS] = {rate, model, ONE, ONE, ONE, ONE, ONE};
            hoofglaze_tone_answered a = make(model, float_of(rate));
            if (!fair)
                memset(said, 0, sizeof said);
            check_call(&stage, "tone_make", a.answer, &a.tone, fair ? 0 : 5, said);
        }
}

/* ---- settings: 9, 1, 3, 4 */

static void check_set(const hoofglaze_tone *t, int i, uint32_t value, uint32_t worked)
{
    float v = float_of(value), w = float_of(worked);
    uint32_t number = v != v ? 3 : i == 3 && !(w >= 0.5f && w <= 2) ? 4 : 0;
    hoofglaze_tone said = *t, a = *t, b = *t;
    if (number == 0) {
        put(&said, CONTROL + i, v < 0 ? 0 : v > 2 ? TWO : value);
        if (i == 3)
            put(&said, FACTOR, worked);
    }
    size_t bytes = strlen(names[i]);
    check_call(&stage, "tone_set", set_to(&a, names[i], bytes, v, w), &a, number, &said);
    check_call(&stage, "typed control", typed_to(&b, i, v, w), &b, number, &said);
    uint32_t kept = (uint32_t)stage.number(&said, CONTROL + i);
    check_answer("tone_read", read(&a, names[i], bytes), 0, 0, 0, kept);
}

/* A state whose registers hold odd bits. */
static hoofglaze_tone ringing(void)
{
    hoofglaze_tone t;
    draw(&t);
    for (int i = 0; i < REGISTERS; i++)
        put(&t, SETTINGS + i, nan_bits(SIGN, INFINITE, (int)(drawn() % NANS)));
    return t;
}

static void settings(void)
{
    static const uint32_t values[] = {0, SIGN, 1, SIGN + 1, ONE, SIGN + ONE, TWO, TWO - 1, TWO + 1,
                                      0x3a83126f, INFINITE - 1, INFINITE, SIGN + INFINITE, QUIET32,
                                      ODD_NAN, INFINITE + 1};
    static const uint32_t worked[] = {0, HALF, HALF - 1, ONE, TWO, TWO + 1, SIGN + ONE, INFINITE,
                                      SIGN + INFINITE, QUIET32, ODD_NAN};
    group("tonestack: controls clamped, refused by 3, then 4; by name, typed; and read");
    for (int i = 0; i < CONTROLS; i++)
        for (int j = 0; j < COUNT(values); j++)
            for (int k = 0; k < COUNT(worked); k++) {
                hoofglaze_tone t = ringing();
                check_set(&t, i, values[j], worked[k]);
            }
}

static const char *const strange[] = {"bas", "", "b", "bass ", " bass", "Bass", "mids", "mi",
                                      "trebl", "treble_", "presenc", "presences", "presencf", "band_0",
                                      "bassmid"};

static void strange_names(void)
{
    group("tonestack: a name that is no control, refused by 1 before 3 and 4");
    check_strange_names(&stage, strange, COUNT(strange));
}

/* ---- 9 */

static void bad_states(void)
{
    group("tonestack: states refused by 9, and those at their bounds");
    hoofglaze_tone t = ringing();
    quiet_input();
    for (int i = 0; i < BAD_RATES; i++)
        check_bad_number(&stage, &t, "mid", RATE, bad_rate[i]);
    for (uint32_t model = 0; model < 6; model++)
        (model < MODELS ? check_good_number(&stage, &t, MODEL, model)
                        : check_bad_number(&stage, &t, "mid", MODEL, model));
    check_bad_number(&stage, &t, "mid", MODEL, 256);
    check_bad_number(&stage, &t, "mid", MODEL, UINT64_MAX);
    for (int i = CONTROL; i <= FACTOR; i++) {
        uint32_t lowest = i == FACTOR ? HALF : 0;
        check_good_number(&stage, &t, i, lowest);
        check_good_number(&stage, &t, i, i == FACTOR ? ONE : SIGN);
        check_good_number(&stage, &t, i, TWO);
        check_bad_number(&stage, &t, "mid", i, TWO + 1);
        check_bad_number(&stage, &t, "mid", i, lowest ? lowest - 1 : SIGN + 1);
        for (int j = 0; j < ODD; j++)
            check_bad_number(&stage, &t, "mid", i, odd[j]);
    }
    t = make(1, 0).tone;
    check_bad_state(&stage, &t, "mid");
}

static void known_answers(void)
{
    static const uint32_t answers[MODELS][KNOWN] = {
        {0x3e86dece, 0x3ea4260b, 0x3e29486c, 0x3df637f5, 0x3db1e0f9,
         0x41875dbd, 0xc0973e23, 0xc053d358, 0xc00c5833, 0xbfce9bcc},
        {0x3e8c3d58, 0x3ead6b51, 0x3e3a9a85, 0x3e0b2e8e, 0x3dcecf5f,
         0x418cd5e1, 0xc092069d, 0xc0523a31, 0xc00e5eb9, 0xbfd5c75a},
        {0x3e71f1bd, 0x3e98298e, 0x3e2b0e16, 0x3e02e9eb, 0x3dc7e04b,
         0x417321ab, 0xc066c8b0, 0xc02b479d, 0xbfedc629, 0xbfb6a377},
        {0x3e858fc2, 0x3ea52941, 0x3e31b7bd, 0x3e048ddd, 0x3dc4f643,
         0x41862107, 0xc08b127e, 0xc048376c, 0xc007972b, 0xbfcb994a},
    };
    static const float values[CONTROLS] = {0.3f, 1.7f, 0, 1.5f};
    group("tonestack: the Rust's answers");
    for (int model = 0; model < MODELS; model++) {
        hoofglaze_tone t = make(model, 48000).tone;
        for (int i = 0; i < CONTROLS; i++)
            typed_to(&t, i, values[i], 1.1885f);
        check_known(&stage, &t, answers[model]);
    }
}

void tonestack_checks(void)
{
    layout();
    known_answers();
    makings();
    settings();
    strange_names();
    bad_states();
    check_blocks(&stage);
}
