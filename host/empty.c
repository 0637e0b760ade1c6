/* Checks of buffers and names of length 0 whose pointer is null, as an empty vector's may be: every call
 * that takes one is made with it, and would end the program if it read there. */
#include "eq.h"
#include "wave_bytes.h"
#include "wave_write.h"

static const hoofglaze_eq_numbers five = {1, 0.5, 0.25, 0.125, 0.0625};
static const hoofglaze_saturator_crossover ten;

/* An empty block is done: no count, and the state as it was. */
static void done_and_same(const char *call, hoofglaze_answer a, const void *given, const void *said,
                          size_t bytes)
{
    check_answer(call, a, 0, 0, 0, 0);
    check(call, memcmp(given, said, bytes), 0, 0, 0, 0);
}

static void no_setting(const char *call, hoofglaze_answer a)
{
    check_answer(call, a, 1, 0, 0, 0);
}

/* It tells the gate's quiet count. */
static void gate_done_and_same(const char *call, hoofglaze_gate_answered a, const hoofglaze_gate *said)
{
    const size_t bytes = offsetof(hoofglaze_gate_registers, quiet) + sizeof said->registers.quiet;
    check_block_answer(call, a.answer, 0, said->registers.quiet);
    check(call, memcmp(&a.gate.settings, &said->settings, sizeof said->settings), 0, 0, 0, 0);
    check(call, memcmp(&a.gate.registers, &said->registers, bytes), 0, 0, 0, 0);
}

static void gate_record(hoofglaze_gate g)
{
    uint8_t aims[1];
    gate_done_and_same("gate_record", hoofglaze_gate_record(g, 0, 0, 0, 0, 0, 0), &g);
    check_answer("gate_record", hoofglaze_gate_record(g, 0, 0, output, 1, 0, 0).answer, 7, 0, 0, 0);
    check_answer("gate_record", hoofglaze_gate_record(g, 0, 0, 0, 0, aims, 1).answer, 7, 0, 0, 0);
    check_answer("gate_record", hoofglaze_gate_record(g, input, 1, output, 1, 0, 0).answer, 7, 0, 0, 0);
    check_answer("gate_record", hoofglaze_gate_record(g, input, 1, 0, 0, aims, 1).answer, 7, 0, 0, 0);
    check_answer("gate_record", hoofglaze_gate_record(g, 0, 0, output, 1, aims, 1).answer, 7, 0, 0, 0);
}

static void gate(uint32_t quiet)
{
    hoofglaze_gate g = hoofglaze_gate_make(48000, 0.5f, 0.5f).gate, lying;
    g.registers.quiet = quiet;
    lying = g;
    gate_done_and_same("gate_block", hoofglaze_gate_block(g, 0, 0, 0, 0), &g);
    hoofglaze_answer b = hoofglaze_gate_block_in_place(&lying, 0, 0, 0, 0);
    gate_done_and_same("gate_block_in_place", (hoofglaze_gate_answered){lying, b}, &g);
    check_answer("gate_block", hoofglaze_gate_block(g, 0, 0, output, 1).answer, 7, 0, 0, 0);
    check_answer("gate_block", hoofglaze_gate_block(g, input, 1, 0, 0).answer, 7, 0, 0, 0);
    gate_record(g);
    no_setting("gate_set", hoofglaze_gate_set(g, 0, 0, 1, 0).answer);
    no_setting("gate_set_in_place", hoofglaze_gate_set_in_place(&lying, 0, 0, 1, 0));
    no_setting("gate_read", hoofglaze_gate_read(g, 0, 0));
}

static void clipper(void)
{
    check_answer("clip_hard", hoofglaze_clip_hard(1, 0, 0, 0, 0), 0, 0, 0, 0);
    check_answer("clip_triode", hoofglaze_clip_triode(1, 0, 0, 0, 0), 0, 0, 0, 0);
    check_answer("clip_hard", hoofglaze_clip_hard(1, 0, 0, output, 1), 7, 0, 0, 0);
    check_answer("clip_triode", hoofglaze_clip_triode(1, input, 1, 0, 0), 7, 0, 0, 0);
}

static void eq(void)
{
    hoofglaze_eq e = hoofglaze_eq_make(48000).equaliser;
    hoofglaze_eq_answered a = hoofglaze_eq_block(e, 0, 0, 0, 0);
    check_call(&equaliser, "eq_block", a.answer, &a.equaliser, 0, &e);
    check_answer("eq_block", hoofglaze_eq_block(e, 0, 0, output, 1).answer, 7, 0, 0, 0);
    no_setting("eq_set", hoofglaze_eq_set(e, 0, 0, (hoofglaze_decibels){1}, five).answer);
    no_setting("eq_read", hoofglaze_eq_read(e, 0, 0));
}

static void tone(void)
{
    hoofglaze_tone t = hoofglaze_tone_make_british(48000).tone;
    hoofglaze_tone_answered a = hoofglaze_tone_block(t, 0, 0, 0, 0);
    done_and_same("tone_block", a.answer, &a.tone, &t, sizeof t);
    check_answer("tone_block", hoofglaze_tone_block(t, input, 1, 0, 0).answer, 7, 0, 0, 0);
    no_setting("tone_set", hoofglaze_tone_set(t, 0, 0, 1, 1).answer);
    no_setting("tone_read", hoofglaze_tone_read(t, 0, 0));
}

static void saturator(void)
{
    hoofglaze_saturator s = hoofglaze_saturator_make(48000, ten, ten, 0.5f, 0.5f, 0.5f).saturator;
    hoofglaze_saturator_answered a = hoofglaze_saturator_block(s, 0, 0, 0, 0);
    done_and_same("saturator_block", a.answer, &a.saturator, &s, sizeof s);
    check_answer("saturator_block", hoofglaze_saturator_block(s, 0, 0, output, 1).answer, 7, 0, 0, 0);
    no_setting("saturator_set", hoofglaze_saturator_set(s, 0, 0, 1, ten).answer);
    no_setting("saturator_read", hoofglaze_saturator_read(s, 0, 0));
}

static void leveller(void)
{
    hoofglaze_leveller l = hoofglaze_leveller_make(48000, 0.5f, 0.5f).leveller;
    l.registers.level = -0.0f;
    hoofglaze_leveller_answered a = hoofglaze_leveller_block(l, 0, 0, 0, 0);
    done_and_same("leveller_block", a.answer, &a.leveller, &l, sizeof l);
    check_answer("leveller_block", hoofglaze_leveller_block(l, 0, 0, output, 1).answer, 7, 0, 0, 0);
    check_answer("leveller_block", hoofglaze_leveller_block(l, input, 1, 0, 0).answer, 7, 0, 0, 0);
    no_setting("leveller_set", hoofglaze_leveller_set(l, 0, 0, 1, 0).answer);
    no_setting("leveller_read", hoofglaze_leveller_read(l, 0, 0));
}

static void recordings(void)
{
    static const uint8_t none[] = {RIFF(36), GOOD, HEAD("data", 0)}, two[2];
    const hoofglaze_written done = {0, 44}, no_room = {15, 0};
    uint8_t file[sizeof none];
    check_wave("wave_read", hoofglaze_wave_read(0, 0), (hoofglaze_wave){.number = 10}, 0, 0);
    check_written("wave_write", hoofglaze_wave_write(48000, 0, 0, file, 44), done, 0, 44);
    check("wave_write", same_bytes(file, none, sizeof none), sizeof none, 0, 44, 2);
    check_written("wave_write", hoofglaze_wave_write(48000, 0, 0, 0, 0), no_room, 0, 0);
    check_written("wave_write", hoofglaze_wave_write(48000, two, 2, 0, 0), no_room, 2, 0);
    check_written("wave_head", hoofglaze_wave_head(48000, 0, 0, 0), no_room, 0, 0);
    check_written("wave_head", hoofglaze_wave_head(48000, 2, 0, 0), no_room, 2, 0);
}

void empty_checks(void)
{
    group("a null pointer with length 0, for each buffer and each name");
    gate(0);
    gate(7);
    clipper();
    eq();
    tone();
    saturator();
    leveller();
    recordings();
}
