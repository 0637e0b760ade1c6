/* Checks of how long a gate holds: 100 ms where it was made and nothing but its threshold set, and as long as it
 * was kept with where a host kept it. */
#include "gate.h"

/* The longest hold: 500 ms at 192,000 Hz. */
enum { BEFORE = 3, BEHIND = 5, MOST = BEFORE + 96000 + BEHIND };

static float sound[MOST], passed[MOST];
static uint8_t aims[MOST];

/* ---- the same samples by each call: how many are aimed open, and an aim for each */

static size_t one_by_one(hoofglaze_gate g, size_t n)
{
    size_t open = 0;
    for (size_t i = 0; i < n; i++) {
        hoofglaze_answer a = hoofglaze_gate_block_in_place(&g, &sound[i], 1, &passed[i], 1);
        check("gate_block_in_place", a.number, 0, i, n, 0);
        aims[i] = (uint8_t)a.count;
        open += a.count;
    }
    return open;
}

/* Without a record the aims stay as they were. */
static size_t in_blocks(hoofglaze_gate g, size_t n, int recorded)
{
    size_t open = 0;
    for (size_t i = 0; i < n; i += LONGEST) {
        size_t m = n - i < LONGEST ? n - i : LONGEST;
        hoofglaze_gate_answered a =
            recorded ? hoofglaze_gate_record(g, sound + i, m, passed + i, m, aims + i, m)
                     : hoofglaze_gate_block(g, sound + i, m, passed + i, m);
        check(recorded ? "gate_record" : "gate_block", a.answer.number, 0, i, n, 0);
        open += a.answer.count;
        g = a.gate;
    }
    return open;
}

static void check_aims(const char *call, size_t open, size_t from, size_t to, size_t n)
{
    size_t wrong = 0;
    for (size_t i = 0; i < n; i++)
        wrong += aims[i] != (i >= from && i < to);
    check(call, open, to - from, from, to, n);
    check(call, wrong, 0, from, to, n);
}

/* Of n samples the gate aims open exactly from one up to another. */
static void check_open(hoofglaze_gate g, size_t from, size_t to, size_t n)
{
    check_aims("gate_block_in_place", one_by_one(g, n), from, to, n);
    memset(aims, 0xa5, sizeof aims);
    check_aims("gate_record", in_blocks(g, n, 1), from, to, n);
    check("gate_block", in_blocks(g, n, 0), to - from, from, to, n);
}

/* The level is a sample's size, so no later one is loud. */
void check_holds(hoofglaze_gate g, float loud, size_t open)
{
    memset(sound, 0, sizeof sound);
    sound[BEFORE] = loud;
    check_open(g, BEFORE, BEFORE + open, BEFORE + open + BEHIND);
}

/* ---- as it was made */

hoofglaze_gate heard(hoofglaze_gate g)
{
    hoofglaze_gate_answered a = set_typed(g, 0, -12, 0.25f);
    check_answer("gate_set_threshold", a.answer, 0, 0, 0, 0);
    return a.gate;
}

static void holds_as_made(void)
{
    static const struct {
        float rate;
        size_t samples;
    } held[] = {{48000, 4800}, {8000, 800},   {11025, 1102},  {22050, 2205},
                {44100, 4410}, {96000, 9600}, {192000, 19200}};
    group("gate: a made one holds 100 ms, 4,800 samples at 48,000 Hz");
    for (int i = 0; i < COUNT(held); i++) {
        hoofglaze_gate g = heard(made(held[i].rate, 0, 0));
        check_holds(g, 0.5f, held[i].samples);
        check_holds(g, -0.5f, held[i].samples);
        check_holds(g, 0.25f, 0);
    }
}

/* ---- as it was kept */

#define FORMER_HOLD 0x42480000u /* 50 ms */

/* A gate of version 5, which made them with 50 ms, made at 48,000 Hz; then its threshold set. */
static const uint32_t former[] = {0x473b8000, 0, ONE, 0x41200000, ONE, 0, 0x42c80000, 0, FORMER_HOLD, 0, 0};
static const uint32_t kept[] = {0x473b8000, 0xc1400000, 0x3e800000, 0x41200000, ONE, 0, 0x42c80000, 0,
                                FORMER_HOLD, 0, 0};

static hoofglaze_gate gate_of(const uint32_t numbers[SETTINGS], hoofglaze_gate_registers registers)
{
    hoofglaze_gate g = {.registers = registers};
    memcpy(&g.settings, numbers, sizeof g.settings);
    return g;
}

static const hoofglaze_gate_registers at_rest;

static void check_former(const char *call, hoofglaze_gate g)
{
    hoofglaze_gate said = gate_of(kept, at_rest);
    check_gate(call, &g, &said);
    check_answer("gate_read", hoofglaze_gate_read(g, (const uint8_t *)"hold", 4), 0, 0, 0, FORMER_HOLD);
    check_holds(g, 0.5f, 2400);
}

static void holds_as_kept(void)
{
    group("gate: a kept one holds as it was kept, 50 ms; so does a made one that is set to it");
    hoofglaze_gate g = gate_of(kept, (hoofglaze_gate_registers){0, 1, 300, 5});
    memset(sound, 0, sizeof sound);
    check_open(g, 0, 299, 400);
    check_former("gate_reset", hoofglaze_gate_reset(g).gate);
    check_former("gate_set_threshold", heard(gate_of(former, at_rest)));
    hoofglaze_gate_answered set = set_typed(heard(made(48000, 0, 0)), HOLD, 50, 0);
    check_hold_answer("gate_set_hold", set.answer, (hoofglaze_truncation){2400, HOOFGLAZE_EXACT});
    check_former("gate_set_hold", set.gate);
}

void hold_checks(void)
{
    holds_as_made();
    holds_as_kept();
}
