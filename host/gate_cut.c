/* Checks of what is told where a gate's hold is set: H, and exact or cut, by each call that sets it; that the
 * gate then holds H; and that no other call tells either. */
#include "gate.h"

enum { MILLISECONDS = 501, DRAWN = 3000 };

static const uint8_t hold_name[] = {'h', 'o', 'l', 'd'};

/* ---- by each call that sets it */

/* A gate whose level is a sample's size. */
static hoofglaze_gate at_rate(float rate)
{
    return heard(made(rate, 0, 0));
}

/* Of a loud sample the counter is H. */
static void check_counter(hoofglaze_gate g, uint64_t samples)
{
    const float loud = 1;
    float output;
    check_answer("gate_block_in_place", hoofglaze_gate_block_in_place(&g, &loud, 1, &output, 1), 0, 0, 1, 0);
    check("a loud sample's counter", g.registers.counter, samples, bytes32(g.settings.hold), 0, 0);
}

/* Typed, by name and in place; the worked number is one that other settings refuse. */
static hoofglaze_gate_answered check_set_hold(hoofglaze_gate g, float hold)
{
    const float odd = float_of(ODD_NAN);
    hoofglaze_gate_answered a = hoofglaze_gate_set_hold(g, hold);
    hoofglaze_gate said = with_setting(g, named[HOLD].place, bytes32(hold));
    check_told_hold("gate_set_hold", a, said);
    check_told_hold("gate_set", hoofglaze_gate_set(g, hold_name, sizeof hold_name, hold, odd), said);
    check_told_hold("gate_set_in_place", set_in_place(g, "hold", sizeof hold_name, hold, odd), said);
    check_counter(a.gate, a.answer.samples);
    return a;
}

/* ---- each whole millisecond */

/* How many are cut, how many of those hold fewer samples than ms*rate/1000, and how many exact ones don't hold
 * just that: in whole numbers. */
struct tally {
    int cut, shorter, other;
};

static struct tally tallied(uint32_t rate)
{
    struct tally t = {0, 0, 0};
    hoofglaze_gate g = at_rate((float)rate);
    g.registers = (hoofglaze_gate_registers){0.125f, 0.25f, 77, 1u << 31};
    for (uint32_t ms = 0; ms < MILLISECONDS; ms++) {
        hoofglaze_answer a = check_set_hold(g, (float)ms).answer;
        int is_cut = a.word == HOOFGLAZE_CUT;
        t.cut += is_cut;
        t.shorter += is_cut && a.samples < ms * rate / 1000;
        t.other += !is_cut && a.samples * 1000 != ms * rate;
    }
    return t;
}

static void each_millisecond(void)
{
    static const struct {
        uint32_t rate;
        int cut;
    } rates[] = {{8000, 282}, {44100, 473}, {48000, 262}, {96000, 262}, {192000, 262}};
    group("gate: each whole millisecond of a hold; 262 are cut at 48,000 Hz, and none loses a sample");
    for (int i = 0; i < COUNT(rates); i++) {
        struct tally t = tallied(rates[i].rate);
        check("holds that are cut", t.cut, rates[i].cut, rates[i].rate, 0, 0);
        check("those that lose a sample", t.shorter, 0, rates[i].rate, 0, 0);
        check("exact ones that are others", t.other, 0, rates[i].rate, 0, 0);
    }
}

/* ---- any */

static void any_hold(void)
{
    static const uint32_t ends[] = {0, SIGN, 1, 0x007fffff, 0x00800000, ONE, 0x43f9ffff, 0x43fa0000};
    group("gate: any hold at any rate, exact or cut");
    for (int i = 0; i < COUNT(ends); i++)
        for (int j = 0; j < COUNT(good_rate); j++)
            check_set_hold(at_rate(good_rate[j]), float_of(ends[i]));
    for (int i = 0; i < DRAWN; i++) {
        hoofglaze_gate g = at_rate((float)between(8000, 192000));
        check_set_hold(g, float_of(between(0, 0x43fa0000)));
        check_set_hold(g, (float)between(0, 4000) / 8);
        check_set_hold(g, (float)between(0, 500000) / 1000);
    }
}

/* ---- what it holds */

/* By hand. A hold of no sample leaves the loud one. */
static void holds(void)
{
    static const struct {
        float hold, rate;
        hoofglaze_truncation said;
    } known[] = {
        {0.0625f, 48000, {3, HOOFGLAZE_CUT}},   {50, 48000, {2400, HOOFGLAZE_EXACT}},
        {0, 48000, {0, HOOFGLAZE_EXACT}},       {-0.0f, 48000, {0, HOOFGLAZE_EXACT}},
        {0.01f, 48000, {0, HOOFGLAZE_CUT}},     {1, 48000, {48, HOOFGLAZE_CUT}},
        {3, 48000, {144, HOOFGLAZE_EXACT}},     {100, 48000, {4800, HOOFGLAZE_EXACT}},
        {0.125f, 8000, {1, HOOFGLAZE_EXACT}},   {0.25f, 8000, {2, HOOFGLAZE_EXACT}},
        {20, 44100, {882, HOOFGLAZE_CUT}},      {33.3f, 44100, {1468, HOOFGLAZE_CUT}},
        {30, 44100, {1323, HOOFGLAZE_EXACT}},   {500, 44100, {22050, HOOFGLAZE_EXACT}},
        {7.25f, 96000, {696, HOOFGLAZE_EXACT}}, {500, 192000, {96000, HOOFGLAZE_EXACT}},
    };
    group("gate: H is what the gate holds, whether exact or cut");
    for (int i = 0; i < COUNT(known); i++) {
        hoofglaze_gate_answered a = check_set_hold(at_rate(known[i].rate), known[i].hold);
        check_hold_answer("gate_set_hold", a.answer, known[i].said);
        check_holds(a.gate, 0.5f, known[i].said.whole ? known[i].said.whole : 1);
        check_holds(a.gate, 0.25f, 0);
    }
}

/* ---- neither H nor a word */

static void check_refused(hoofglaze_gate g, float hold, uint32_t number)
{
    check_told("gate_set_hold", hoofglaze_gate_set_hold(g, hold), number, g);
    check_told("gate_set", hoofglaze_gate_set(g, hold_name, sizeof hold_name, hold, 0), number, g);
    check_told("gate_set_in_place", set_in_place(g, "hold", sizeof hold_name, hold, 0), number, g);
}

static void refused_holds(hoofglaze_gate g)
{
    static const uint32_t values[] = {0x43fa0001, SIGN + 1, SIGN + ONE, 0x7f7fffff, INFINITE, SIGN + INFINITE,
                                      QUIET32, ODD_NAN};
    hoofglaze_gate bad = g;
    bad.registers.counter = 96001;
    for (int i = 0; i < COUNT(values); i++) {
        check_refused(g, float_of(values[i]), 3);
        check_refused(bad, float_of(values[i]), 9);
    }
    check_refused(bad, 50, 9);
    check_refused(with_setting(g, 0, 0), 50, 9);
    check_told("gate_set", hoofglaze_gate_set(g, hold_name, 3, 50, 0), 1, g);
    check_told("gate_set_in_place", set_in_place(g, "holds", 5, 50, 0), 1, g);
}

/* Values that a hold may have too. */
static void other_settings(hoofglaze_gate g)
{
    static const float values[HOLD] = {0, 50, 1, 100};
    for (int i = 0; i < HOLD; i++) {
        const uint8_t *name = (const uint8_t *)named[i].name;
        size_t bytes = strlen(named[i].name);
        hoofglaze_gate said = with_setting(g, named[i].place, bytes32(values[i]));
        if (named[i].worked >= 0)
            said = with_setting(said, named[i].worked, HALF);
        check_told("typed setting", set_typed(g, i, values[i], 0.5f), 0, said);
        check_told("gate_set", hoofglaze_gate_set(g, name, bytes, values[i], 0.5f), 0, said);
        check_told("gate_set_in_place", set_in_place(g, named[i].name, bytes, values[i], 0.5f), 0, said);
    }
}

/* Of the samples below the first is loud, the second isn't, and the third is refused. */
static void check_other_block(const char *call, hoofglaze_answer a, size_t n, size_t count)
{
    if (n == 3)
        check_answer(call, a, 6, 2, 0, 0);
    else
        check_block_answer(call, a, count, n == 2);
}

/* A block of the first so many samples. */
static void other_blocks(hoofglaze_gate g, size_t n)
{
    static const float sound[] = {0.5f, 0.25f, 65};
    float output[COUNT(sound)];
    uint8_t aims[COUNT(sound)];
    hoofglaze_gate lying = hoofglaze_gate_reset(g).gate;
    size_t count = 0;
    for (size_t i = 0; i < n; i++)
        count += i == 0 || i < held(g.settings.hold, g.settings.rate).whole;
    check_other_block("gate_block", hoofglaze_gate_block(lying, sound, n, output, n).answer, n, count);
    check_other_block("gate_record", hoofglaze_gate_record(lying, sound, n, output, n, aims, n).answer, n,
                      count);
    check_other_block("gate_block_in_place", hoofglaze_gate_block_in_place(&lying, sound, n, output, n), n,
                      count);
}

static void other_calls(hoofglaze_gate g)
{
    hoofglaze_gate lying = g;
    check_answer("gate_make", hoofglaze_gate_make(48000, 0.5f, 0.5f).answer, 0, 0, 0, 0);
    check_answer("gate_make", hoofglaze_gate_make(48000, 0.5f, 1).answer, 4, 0, 0, 0);
    check_answer("gate_read", hoofglaze_gate_read(g, hold_name, 4), 0, 0, 0, bytes32(g.settings.hold));
    check_answer("gate_read", hoofglaze_gate_read(g, hold_name, 3), 1, 0, 0, 0);
    check_answer("gate_reset", hoofglaze_gate_reset(g).answer, 0, 0, 0, 0);
    check_answer("gate_reset_in_place", hoofglaze_gate_reset_in_place(&lying), 0, 0, 0, 0);
    for (size_t n = 0; n <= 3; n++)
        other_blocks(g, n);
}

/* Of gates whose hold is exact, cut and none. */
static void no_other(void)
{
    static const float kept[] = {50, 0.0625f, 0};
    group("gate: every other call, and a hold that is refused, tells neither H nor a word");
    for (int i = 0; i < COUNT(kept); i++) {
        hoofglaze_gate g = check_set_hold(at_rate(48000), kept[i]).gate;
        refused_holds(g);
        other_settings(g);
        other_calls(g);
    }
}

void cut_checks(void)
{
    each_millisecond();
    any_hold();
    holds();
    no_other();
}
