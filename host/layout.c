/* Checks that the library lays a state's numbers and an answer's where the header does: on raw bytes that
 * calls give, and that they are handed back. */
#include "checks.h"
#include "hoofglaze.h"
#include "wave_bytes.h"

_Static_assert(sizeof(hoofglaze_truncation) == 16, "a truncation");
_Static_assert(sizeof(hoofglaze_answer) == 40, "an answer");
_Static_assert(sizeof(hoofglaze_wave) == 24, "a recording");
_Static_assert(sizeof(hoofglaze_written) == 8, "a recording that is written");
_Static_assert(sizeof(hoofglaze_follower) == 12 && sizeof(hoofglaze_follower_answered) == 56, "a follower");
_Static_assert(sizeof(hoofglaze_blocker) == 12 && sizeof(hoofglaze_blocker_answered) == 56, "a blocker");
_Static_assert(sizeof(hoofglaze_decibels) == 4 && sizeof(hoofglaze_factor) == 4, "a float each");
_Static_assert(sizeof(hoofglaze_gate_settings) == 44 && sizeof(hoofglaze_gate_registers) == 24, "a gate");
_Static_assert(sizeof(hoofglaze_gate) == 72 && sizeof(hoofglaze_gate_answered) == 112, "a gate answered");
_Static_assert(sizeof(hoofglaze_gate_registers_before) == 16 && sizeof(hoofglaze_gate_before) == 64,
               "a gate as it was before version 9");
_Static_assert(sizeof(hoofglaze_leveller) == 40 && sizeof(hoofglaze_leveller_answered) == 80, "a leveller");
_Static_assert(sizeof(hoofglaze_eq) == 1288 && sizeof(hoofglaze_eq_answered) == 1328, "an equaliser");
_Static_assert(sizeof(hoofglaze_tone) == 44 && sizeof(hoofglaze_tone_answered) == 88, "a tone stack");
_Static_assert(sizeof(hoofglaze_saturator) == 356, "a saturator");
_Static_assert(sizeof(hoofglaze_saturator_answered) == 400, "a saturator answered");

static uint32_t word_at(const void *from, size_t place)
{
    uint32_t n;
    memcpy(&n, (const uint8_t *)from + place, sizeof n);
    return n;
}

static uint64_t long_at(const void *from, size_t place)
{
    uint64_t n;
    memcpy(&n, (const uint8_t *)from + place, sizeof n);
    return n;
}

/* Floats that lie one behind the other. */
static void check_floats(const char *call, const void *from, size_t place, const float *said, int count)
{
    for (int i = 0; i < count; i++)
        check(call, word_at(from, place + 4 * i), bytes32(said[i]), place + 4 * i, 0, 0);
}

static void check_whole_answer_at(const char *call, const void *from, size_t place, hoofglaze_answer said)
{
    check(call, word_at(from, place), said.number, place, 0, 0);
    check(call, word_at(from, place + 4), bytes32(said.value), place + 4, 0, 0);
    check(call, long_at(from, place + 8), said.place, place + 8, 0, 0);
    check(call, long_at(from, place + 16), said.count, place + 16, 0, 0);
    check(call, long_at(from, place + 24), said.samples, place + 24, 0, 0);
    check(call, word_at(from, place + 32), said.word, place + 32, 0, 0);
    check(call, word_at(from, place + 36), said.quiet, place + 36, 0, 0);
}

static void check_answer_at(const char *call, const void *from, size_t place, uint32_t number, float value,
                            uint64_t at, uint64_t count)
{
    const hoofglaze_answer said = {.number = number, .value = value, .place = at, .count = count};
    check_whole_answer_at(call, from, place, said);
}

static void truncation(void)
{
    static const float numbers[] = {0x1p63f, 2.5f, -1, 0x1p64f};
    static const uint64_t wholes[] = {0x8000000000000000u, 2, 0, UINT64_MAX};
    static const uint32_t words[] = {1, 2, 2, 2};
    for (unsigned i = 0; i < sizeof numbers / sizeof *numbers; i++) {
        hoofglaze_truncation t;
        memset(&t, 0xaa, sizeof t);
        t = hoofglaze_truncated(numbers[i]);
        check("truncated", long_at(&t, 0), wholes[i], 0, i, 0);
        check("truncated", word_at(&t, 8), words[i], 8, i, 0);
    }
}

static void lone(void)
{
    hoofglaze_follower f = hoofglaze_follower_make(0.5f, 0.25f).follower;
    hoofglaze_follower_answered a = hoofglaze_follower_step(f, 2);
    check_floats("follower_step", &a, 0, (float[]){0.5f, 0.25f, 1}, 3);
    check_answer_at("follower_step", &a, 16, 0, 1, 0, 0);
    hoofglaze_blocker b = hoofglaze_blocker_step(hoofglaze_blocker_make(0.5f).blocker, 3).blocker;
    hoofglaze_blocker_answered c = hoofglaze_blocker_step(b, 4);
    check_floats("blocker_step", &c, 0, (float[]){0.5f, 4, 2.5f}, 3);
    check_answer_at("blocker_step", &c, 16, 0, 2.5f, 0, 0);
}

/* Every number of this gate is another one. */
static const float settings[] = {44100, -12, 0.125f, 3, 7, 0.75f, 70, 0.625f, 20, 0.5f, 0.25f};

static hoofglaze_gate set_gate(void)
{
    hoofglaze_gate g = hoofglaze_gate_make(settings[0], settings[9], settings[10]).gate;
    const hoofglaze_decibels threshold = {settings[1]};
    const hoofglaze_factor factor = {settings[2]};
    g = hoofglaze_gate_set_threshold(g, threshold, factor).gate;
    g = hoofglaze_gate_set_ratio(g, settings[3]).gate;
    g = hoofglaze_gate_set_attack(g, settings[4], settings[5]).gate;
    g = hoofglaze_gate_set_release(g, settings[6], settings[7]).gate;
    return hoofglaze_gate_set_hold(g, settings[8]).gate;
}

/* Two samples are loud, and the third, at half the factor, isn't; the fourth is refused. */
static const float heard[] = {0.5f, 0.25f, 0, 65};

/* The registers after those three, and the answer behind them. */
static void check_three(const char *call, const hoofglaze_gate_answered *a)
{
    check_floats(call, a, 0, settings, 11);
    check_floats(call, a, 48, (float[]){0.0625f, 0.578125f}, 2);
    check(call, long_at(a, 56), 881, 56, 0, 0);
    check(call, word_at(a, 64), 1, 64, 0, 0);
    check_whole_answer_at(call, a, 72, (hoofglaze_answer){.count = 3, .quiet = 1});
}

static void gate_given(void)
{
    float output[4];
    hoofglaze_gate_answered a = hoofglaze_gate_block(set_gate(), heard, 2, output, 2);
    check_floats("gate_block", &a, 0, settings, 11);
    check_floats("gate_block", &a, 48, (float[]){0.25f, 0.4375f}, 2);
    check("gate_block", long_at(&a, 56), 882, 56, 0, 0);
    check("gate_block", word_at(&a, 64), 0, 64, 0, 0);
    check_answer_at("gate_block", &a, 72, 0, 0, 0, 2);
    a = hoofglaze_gate_block(set_gate(), heard, 3, output, 3);
    check_three("gate_block", &a);
    a = hoofglaze_gate_block(a.gate, heard, 4, output, 4);
    check_answer_at("gate_block", &a, 72, 6, 0, 3, 0);
    check("gate_block", word_at(&a, 64), 1, 64, 0, 0);
    hoofglaze_answer r = hoofglaze_gate_read(a.gate, (const uint8_t *)"release", 7);
    check_answer_at("gate_read", &r, 0, 0, 70, 0, 0);
}

static void hold_at(float hold, hoofglaze_answer said)
{
    hoofglaze_gate g = set_gate();
    hoofglaze_gate_answered a = hoofglaze_gate_set_hold(g, hold);
    check_whole_answer_at("gate_set_hold", &a, 72, said);
    a = hoofglaze_gate_set(g, (const uint8_t *)"hold", 4, hold, 0);
    check_whole_answer_at("gate_set", &a, 72, said);
    hoofglaze_answer b = hoofglaze_gate_set_in_place(&g, (const uint8_t *)"hold", 4, hold, 0);
    check_whole_answer_at("gate_set_in_place", &b, 0, said);
}

/* At 44,100 Hz. */
static void hold_given(void)
{
    hold_at(30, (hoofglaze_answer){.samples = 1323, .word = 1});
    hold_at(33, (hoofglaze_answer){.samples = 1455, .word = 2});
    hold_at(501, (hoofglaze_answer){.number = 3});
}

/* The aims' length is the argument that lies behind the gate. */
static void record_given(void)
{
    float output[3];
    uint8_t aims[4] = {7, 7, 7, 7};
    hoofglaze_gate_answered a = hoofglaze_gate_record(set_gate(), heard, 3, output, 3, aims, 3);
    check_three("gate_record", &a);
    check("gate_record", aims[0] << 24 | aims[1] << 16 | aims[2] << 8 | aims[3], 0x01010107, 0, 0, 0);
    a = hoofglaze_gate_record(a.gate, heard, 3, output, 3, aims, 2);
    check_answer_at("gate_record", &a, 72, 7, 0, 0, 0);
    check("gate_record", long_at(&a, 56), 881, 56, 0, 0);
    check("gate_record", word_at(&a, 64), 1, 64, 0, 0);
}

/* A gate from bytes that were never one: a block of it steps from these numbers. */
static void gate_handed_back(void)
{
    uint8_t bytes[72];
    const float level = 2, state = 0.5f, input = 0;
    const uint64_t counter = 7;
    const uint32_t quiet = 0x12345678;
    float output;
    hoofglaze_gate g;
    memset(bytes, 0xaa, sizeof bytes);
    memcpy(bytes, settings, sizeof settings);
    memcpy(bytes + 8, &(float){1}, sizeof(float));
    memcpy(bytes + 48, &level, sizeof level);
    memcpy(bytes + 52, &state, sizeof state);
    memcpy(bytes + 56, &counter, sizeof counter);
    memcpy(bytes + 64, &quiet, sizeof quiet);
    memcpy(&g, bytes, sizeof g);
    hoofglaze_answer a = hoofglaze_gate_block_in_place(&g, &input, 1, &output, 1);
    check_whole_answer_at("gate_block_in_place", &a, 0, (hoofglaze_answer){.count = 1, .quiet = 0x12345679});
    check_floats("gate_block_in_place", &g, 48, (float[]){0.5f, 0.625f}, 2);
    check("gate_block_in_place", long_at(&g, 56), 6, 56, 0, 0);
    check("gate_block_in_place", word_at(&g, 64), 0x12345679, 64, 0, 0);
    check_floats("gate_block_in_place", &g, 12, settings + 3, 8);
}

/* The bytes of a gate of the versions before 9: today's are the same, with the count behind them. */
static void gate_loaded(void)
{
    uint8_t bytes[64];
    hoofglaze_gate_before before;
    hoofglaze_gate g;
    for (size_t i = 0; i < sizeof bytes; i++)
        bytes[i] = (uint8_t)(3 * i + 1);
    memcpy(&before, bytes, sizeof before);
    memset(&g, 0xaa, sizeof g);
    g = hoofglaze_gate_load(before);
    for (size_t i = 0; i < 44; i += 4)
        check("gate_load", word_at(&g, i), word_at(bytes, i), i, 0, 0);
    check("gate_load", long_at(&g, 48), long_at(bytes, 48), 48, 0, 0);
    check("gate_load", long_at(&g, 56), long_at(bytes, 56), 56, 0, 0);
    check("gate_load", word_at(&g, 64), 0, 64, 0, 0);
}

/* Every number of this leveller is another one, but for the ratio and makeup. */
static const float levelled[] = {96000, -24, 0.0625f, 2, 5, 0.75f, 90, 0.5f, 2, 0.25f};

static hoofglaze_leveller set_leveller(void)
{
    hoofglaze_leveller l = hoofglaze_leveller_make(levelled[0], 0.125f, 0.375f).leveller;
    const hoofglaze_decibels threshold = {levelled[1]};
    const hoofglaze_factor factor = {levelled[2]}, makeup = {levelled[8]};
    l = hoofglaze_leveller_set_threshold(l, threshold, factor).leveller;
    l = hoofglaze_leveller_set_ratio(l, levelled[3]).leveller;
    l = hoofglaze_leveller_set_attack(l, levelled[4], levelled[5]).leveller;
    l = hoofglaze_leveller_set_release(l, levelled[6], levelled[7]).leveller;
    return hoofglaze_leveller_set_makeup(l, makeup).leveller;
}

/* The level rises by a quarter of 1, to four times the threshold's factor. */
static void leveller_given(void)
{
    const float input[] = {1, 1, 65};
    float output[3];
    hoofglaze_leveller_answered a = hoofglaze_leveller_block(set_leveller(), input, 1, output, 1);
    check_floats("leveller_block", &a, 0, levelled, 10);
    check_answer_at("leveller_block", &a, 40, 0, 0, 0, 0);
    check_floats("leveller_block", output, 0, (float[]){1}, 1);
    a = hoofglaze_leveller_block(a.leveller, input, 3, output, 3);
    check_answer_at("leveller_block", &a, 40, 6, 0, 2, 0);
    check_floats("leveller_block", &a, 0, levelled, 10);
    hoofglaze_answer r = hoofglaze_leveller_read(a.leveller, (const uint8_t *)"release", 7);
    check_answer_at("leveller_read", &r, 0, 0, 90, 0, 0);
}

/* A leveller from bytes that were never one: its level falls by half, to sixteen times the factor. */
static void leveller_handed_back(void)
{
    uint8_t bytes[40];
    const float ratio = 4, level = 2, input = -0.0f;
    float output;
    hoofglaze_leveller l;
    memcpy(bytes, levelled, sizeof bytes);
    memcpy(bytes + 12, &ratio, sizeof ratio);
    memcpy(bytes + 36, &level, sizeof level);
    memcpy(&l, bytes, sizeof l);
    hoofglaze_leveller_answered a = hoofglaze_leveller_block(l, &input, 1, &output, 1);
    check_answer_at("leveller_block", &a, 40, 0, 0, 0, 0);
    check_floats("leveller_block", &a, 36, (float[]){1}, 1);
    check_floats("leveller_block", &output, 0, (float[]){-0.0f}, 1);
    check_floats("leveller_block", &a, 0, levelled, 3);
    check_floats("leveller_block", &a, 12, (float[]){4}, 1);
    check_floats("leveller_block", &a, 16, levelled + 4, 5);
}

static void recording(void)
{
    hoofglaze_wave w;
    memset(&w, 0xaa, sizeof w);
    w = hoofglaze_wave_read(FILE_OF(GOOD, SAMPLES));
    check("wave_read", word_at(&w, 0), 0, 0, 0, 0);
    check("wave_read", word_at(&w, 4), 48000, 4, 0, 0);
    check("wave_read", long_at(&w, 8), 44, 8, 0, 0);
    check("wave_read", long_at(&w, 16), 6, 16, 0, 0);
    w = hoofglaze_wave_read((const uint8_t[]){RIFF(42)}, 11);
    check("wave_read", word_at(&w, 0), 10, 0, 0, 0);
    check("wave_read", word_at(&w, 4), 0, 4, 0, 0);
    check("wave_read", long_at(&w, 8), 0, 8, 0, 0);
    check("wave_read", long_at(&w, 16), 0, 16, 0, 0);
}

static void recording_written(void)
{
    uint8_t file[50];
    hoofglaze_written w;
    memset(&w, 0xaa, sizeof w);
    w = hoofglaze_wave_write(48000, (const uint8_t[]){SIX}, 6, file, sizeof file);
    check("wave_write", word_at(&w, 0), 0, 0, 0, 0);
    check("wave_write", word_at(&w, 4), 50, 4, 0, 0);
    w = hoofglaze_wave_write(48000, (const uint8_t[]){SIX}, 5, file, sizeof file);
    check("wave_write", word_at(&w, 0), 14, 0, 0, 0);
    check("wave_write", word_at(&w, 4), 0, 4, 0, 0);
    w = hoofglaze_wave_head(48000, 6, file, sizeof file);
    check("wave_head", word_at(&w, 0), 0, 0, 0, 0);
    check("wave_head", word_at(&w, 4), 44, 4, 0, 0);
    w = hoofglaze_wave_head(48000, 5, file, sizeof file);
    check("wave_head", word_at(&w, 0), 14, 0, 0, 0);
    check("wave_head", word_at(&w, 4), 0, 4, 0, 0);
}

void layout_checks(void)
{
    group("layout: numbers where the header has them");
    truncation();
    lone();
    gate_given();
    hold_given();
    record_given();
    gate_handed_back();
    gate_loaded();
    leveller_given();
    leveller_handed_back();
    recording();
    recording_written();
}
