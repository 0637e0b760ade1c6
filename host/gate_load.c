/* Checks of gates that a version before 9 kept, and of what the quiet count is to all else. A loaded gate has
 * every bit of the kept one and a count of 0; the next call refuses by 9 what 9 refuses. And gates that differ
 * in nothing but the count give the same outputs, aims, answers and states. */
#include <stdio.h>

#include "gate.h"

enum { LOADED = 4000, SESSIONS = 80, CALLS = 40, LEVEL = SETTINGS, STATE, COUNTER, NUMBERS };

/* ---- a kept gate's numbers, settings first */

static void put(hoofglaze_gate_before *b, int i, uint64_t bits)
{
    if (i == COUNTER)
        b->registers.counter = bits;
    else
        memcpy((char *)b + (i < SETTINGS ? 4 * i : 48 + 4 * (i - LEVEL)), &bits, 4);
}

static uint64_t number_of(const hoofglaze_gate_before *b, int i)
{
    uint32_t bits;
    if (i == COUNTER)
        return b->registers.counter;
    memcpy(&bits, (const char *)b + (i < SETTINGS ? 4 * i : 48 + 4 * (i - LEVEL)), sizeof bits);
    return bits;
}

/* The first 64 bytes of today's gate. */
static hoofglaze_gate_before kept_of(hoofglaze_gate g)
{
    hoofglaze_gate_before b;
    memcpy(&b, &g, sizeof b);
    return b;
}

/* ---- what 9 refuses, by the ranges of the header */

static const struct {
    float lowest, highest;
    int below; /* the highest is none of them */
} ranges[COUNTER] = {
    {8000, 192000, 0}, {-80, 0, 0}, {0x1p-14f, 1, 0}, {1, 100, 0}, {0.1f, 100, 0}, {0, 1, 1}, {1, 1000, 0},
    {0, 1, 1},         {0, 500, 0}, {0, 1, 1},        {0, 1, 1},   {0, 64, 0},     {0, 1, 0},
};

static int is_accepted(const hoofglaze_gate_before *b)
{
    int accepted = b->registers.counter <= 96000;
    for (int i = 0; i < COUNTER; i++) {
        float x = float_of((uint32_t)number_of(b, i));
        accepted &= x >= ranges[i].lowest && (ranges[i].below ? x < ranges[i].highest : x <= ranges[i].highest);
    }
    return accepted && b->settings.rate == (float)(int)b->settings.rate;
}

static unsigned long seen[2];

/* The calls that come next, of a gate that was loaded. */
static void check_next(hoofglaze_gate g, int accepted)
{
    static const float silence[3];
    uint32_t number = accepted ? 0 : 9;
    float y[3];
    hoofglaze_gate rest = g;
    if (accepted)
        rest.registers = (hoofglaze_gate_registers){0, 0, 0, 0};
    seen[accepted]++;
    check_told("gate_reset", hoofglaze_gate_reset(g), number, rest);
    for (int i = 0; i < FORMS; i++) {
        hoofglaze_gate_answered a = forms[i].run(g, silence, 0, y, 0);
        check_told(forms[i].name, a, number, g);
        check(forms[i].name, forms[i].run(g, silence, 3, y, 3).answer.number, number, i, 0, 0);
    }
    check("gate_set_ratio", hoofglaze_gate_set_ratio(g, 3).answer.number, number, 0, 0, 0);
    check("gate_read", hoofglaze_gate_read(g, (const uint8_t *)"hold", 4).number, number, 0, 0, 0);
}

static hoofglaze_gate check_load(hoofglaze_gate_before b)
{
    hoofglaze_gate g = hoofglaze_gate_load(b);
    for (int i = 0; i < SETTINGS; i++)
        check("gate_load", setting(&g, i), number_of(&b, i), i, 0, 0);
    check("gate_load", bytes32(g.registers.level), number_of(&b, LEVEL), LEVEL, 0, 0);
    check("gate_load", bytes32(g.registers.state), number_of(&b, STATE), STATE, 0, 0);
    check("gate_load", g.registers.counter, number_of(&b, COUNTER), COUNTER, 0, 0);
    check("gate_load", g.registers.quiet, 0, NUMBERS, 0, 0);
    check_next(g, is_accepted(&b));
    return g;
}

/* ---- gates of each kind */

/* One that was made, set and run, with any count. */
static hoofglaze_gate at_work(void)
{
    static const float holds[] = {0, 0.25f, 1, 30, 500};
    hoofglaze_gate g = made(good_rate[drawn() % GOOD_RATES], float_of(between(0, BELOW_ONE)),
                            float_of(between(0, BELOW_ONE)));
    size_t n = drawn() % 200;
    g = set_typed(g, 0, -30, float_of(between(0x3c000000, ONE))).gate;
    g = set_typed(g, 2, 2, float_of(between(0, BELOW_ONE))).gate;
    g = set_typed(g, 3, 70, float_of(between(0, BELOW_ONE))).gate;
    g = set_typed(g, HOLD, holds[drawn() % COUNT(holds)], 0).gate;
    draw_input();
    g = hoofglaze_gate_block(g, input, n, output, n).gate;
    g.registers.quiet = drawn() % 4 ? (uint32_t)drawn() : UINT32_MAX - (uint32_t)(drawn() % 300);
    return g;
}

/* The first two are what 9 accepts, and one number beside it or odd; then any bits. */
static hoofglaze_gate_before any_kept(int i)
{
    hoofglaze_gate_before b = kept_of(at_work());
    int which = (int)(drawn() % NUMBERS);
    if (i % 4 == 1 && which < COUNTER) {
        uint32_t end = bytes32(drawn() % 2 ? ranges[which].lowest : ranges[which].highest);
        put(&b, which, end + (uint32_t)(drawn() % 3) - 1);
    } else if (i % 4 == 1) {
        put(&b, which, 95999 + drawn() % 3);
    } else if (i % 4 == 2) {
        put(&b, which, which == COUNTER ? drawn() : nan_bits(SIGN, INFINITE, (int)(drawn() % NANS)));
    } else if (i % 4 == 3) {
        for (int j = 0; j < NUMBERS; j++)
            put(&b, j, drawn() % 4 ? drawn() : special_bits(SIGN, INFINITE, (int)(drawn() % SPECIAL)));
    }
    return b;
}

/* Every NaN in every number. */
static void odd_kept(void)
{
    hoofglaze_gate_before good = kept_of(at_work());
    for (int i = 0; i < COUNTER; i++)
        for (int j = 0; j < NANS; j++) {
            hoofglaze_gate_before b = good;
            put(&b, i, nan_bits(SIGN, INFINITE, j));
            check_load(b);
        }
}

static void loads(void)
{
    group("gate: one kept before version 9 is loaded bit for bit, and 9 comes with the next call");
    odd_kept();
    for (int i = 0; i < LOADED; i++)
        check_load(any_kept(i));
    printf("  %lu accepted, %lu refused\n", seen[1], seen[0]);
    check("gates that 9 accepts", seen[1] > 1000, 1, seen[1], 0, 0);
    check("gates that 9 refuses", seen[0] > 1000, 1, seen[0], 0, 0);
}

/* Today's gate without its count, loaded, is that gate with a count of 0. */
static void prefixes(void)
{
    group("gate: the first 64 bytes of today's are a gate kept before version 9");
    for (int i = 0; i < LOADED / 10; i++) {
        hoofglaze_gate g = at_work(), loaded = check_load(kept_of(g));
        g.registers.quiet = 0;
        check_gate("gate_load", &loaded, &g);
    }
}

/* ---- nothing else depends on the count */

struct twins {
    hoofglaze_gate one, other;
};

/* All but the count, of the gates and the answers. */
static void check_alike(const char *call, hoofglaze_gate_answered a, hoofglaze_gate_answered b)
{
    hoofglaze_answer said = b.answer;
    check(call, a.answer.number, said.number, a.answer.place, said.place, 0);
    check(call, a.answer.place, said.place, a.answer.number, 0, 0);
    check(call, a.answer.count, said.count, a.answer.number, 0, 0);
    check(call, bytes32(a.answer.value), bytes32(said.value), a.answer.number, 0, 0);
    check(call, a.answer.samples, said.samples, a.answer.number, 0, 0);
    check(call, a.answer.word, said.word, a.answer.number, 0, 0);
    a.gate.registers.quiet = b.gate.registers.quiet;
    check_gate(call, &a.gate, &b.gate);
}

/* In any form; one in sixteen is refused. */
static void both_run(struct twins *t)
{
    static float said[LONGEST];
    static uint8_t aims[LONGEST];
    const struct form *f = &forms[drawn() % FORMS];
    size_t n = drawn() % 300;
    draw_input();
    if (drawn() % 16 == 0)
        input[n / 2] = 65;
    hoofglaze_gate_answered a = f->run(t->one, input, n, said, n);
    memcpy(aims, aims_of_form, n);
    hoofglaze_gate_answered b = f->run(t->other, input, n, output, n);
    check_alike(f->name, a, b);
    if (a.answer.number == 0)
        check(f->name, memcmp(said, output, n * sizeof(float)), 0, n, 0, 0);
    check(f->name, memcmp(aims, aims_of_form, n), 0, n, 0, 0);
    *t = (struct twins){a.gate, b.gate};
}

/* One in four is refused. */
static void both_set(struct twins *t)
{
    static const float values[] = {-20, 7, 3, 40, 2.5f};
    int i = (int)(drawn() % NAMED);
    float value = drawn() % 4 ? values[i] : 2000, worked = float_of(between(0x3c000000, BELOW_ONE));
    const uint8_t *name = (const uint8_t *)named[i].name;
    hoofglaze_gate_answered a = set_typed(t->one, i, value, worked), b = set_typed(t->other, i, value, worked);
    check_alike(named[i].name, a, b);
    a.answer = hoofglaze_gate_read(a.gate, name, strlen(named[i].name));
    b.answer = hoofglaze_gate_read(b.gate, name, strlen(named[i].name));
    check_alike("gate_read", a, b);
    *t = (struct twins){a.gate, b.gate};
}

static void both_reset(struct twins *t)
{
    hoofglaze_gate_answered a = hoofglaze_gate_reset(t->one), b = hoofglaze_gate_reset(t->other);
    check_alike("gate_reset", a, b);
    *t = (struct twins){a.gate, b.gate};
}

static void on_count(void)
{
    group("gate: nothing but the quiet count depends on it");
    for (int i = 0; i < SESSIONS; i++) {
        hoofglaze_gate g = at_work();
        struct twins t = {g, hoofglaze_gate_load(kept_of(g))};
        for (int j = 0; j < CALLS; j++) {
            if (drawn() % 4 == 0)
                t.other.registers.quiet = (uint32_t)drawn();
            uint64_t which = drawn() % 10;
            (which == 0 ? both_reset : which < 3 ? both_set : both_run)(&t);
        }
    }
}

void load_checks(void)
{
    loads();
    prefixes();
    on_count();
}
