/* Checks of the quiet count by hand, in each form of a block: after loud and other samples, blocks cut
 * anywhere, resets, settings, refusals; from any kept count; and at the top, where it stops. */
#include "gate.h"

/* ---- the three forms */

uint8_t aims_of_form[ROOM];

static hoofglaze_gate_answered by_value(hoofglaze_gate g, const float *from, size_t n, float *to, size_t m)
{
    return hoofglaze_gate_block(g, from, n, to, m);
}

static hoofglaze_gate_answered in_place(hoofglaze_gate g, const float *from, size_t n, float *to, size_t m)
{
    hoofglaze_gate_answered a = {.gate = g};
    a.answer = hoofglaze_gate_block_in_place(&a.gate, from, n, to, m);
    return a;
}

static hoofglaze_gate_answered with_record(hoofglaze_gate g, const float *from, size_t n, float *to, size_t m)
{
    return hoofglaze_gate_record(g, from, n, to, m, aims_of_form, m);
}

const struct form forms[FORMS] = {
    {"gate_block", by_value}, {"gate_block_in_place", in_place}, {"gate_record", with_record}};

hoofglaze_gate check_quiet(hoofglaze_gate g, const float *from, size_t n, uint32_t quiet)
{
    static float outputs[FORMS][LONGEST];
    hoofglaze_gate_answered first = forms[0].run(g, from, n, outputs[0], n);
    for (int i = 0; i < FORMS; i++) {
        hoofglaze_gate_answered a = forms[i].run(g, from, n, outputs[i], n);
        check_block_answer(forms[i].name, a.answer, first.answer.count, quiet);
        check(forms[i].name, a.gate.registers.quiet, quiet, n, 0, 0);
        check_gate(forms[i].name, &a.gate, &first.gate);
        check(forms[i].name, memcmp(outputs[i], outputs[0], n * sizeof(float)), 0, n, 0, 0);
    }
    return first.gate;
}

/* ---- by hand */

/* Its level is a sample's size. */
static hoofglaze_gate listening(void)
{
    return heard(made(48000, 0, 0));
}

/* The second is just as large as the factor, which is not loud. */
static const char kinds[] = ".=ln";
static const float samples[] = {0, 0.25f, 0.5f, -0.5f};

/* Set typed, by name and in place: the count stays, and none is told. */
static hoofglaze_gate set_between(hoofglaze_gate g, int i, float value, float worked)
{
    const struct named *n = &named[i];
    hoofglaze_gate said = with_setting(g, n->place, bytes32(value));
    if (n->worked >= 0)
        said = with_setting(said, n->worked, bytes32(worked));
    const hoofglaze_gate_answered a[] = {
        set_typed(g, i, value, worked), set_in_place(g, n->name, strlen(n->name), value, worked),
        hoofglaze_gate_set(g, (const uint8_t *)n->name, strlen(n->name), value, worked)};
    for (int j = 0; j < COUNT(a); j++)
        if (i == HOLD)
            check_told_hold(n->name, a[j], said);
        else
            check_told(n->name, a[j], 0, said);
    check_answer("gate_read", hoofglaze_gate_read(said, (const uint8_t *)n->name, strlen(n->name)), 0, 0, 0,
                 bytes32(value));
    return said;
}

static hoofglaze_gate reset_between(hoofglaze_gate g)
{
    hoofglaze_gate said = g;
    said.registers = (hoofglaze_gate_registers){0, 0, 0, 0};
    hoofglaze_gate_answered lying = {.gate = g};
    lying.answer = hoofglaze_gate_reset_in_place(&lying.gate);
    check_told("gate_reset_in_place", lying, 0, said);
    check_told("gate_reset", hoofglaze_gate_reset(g), 0, said);
    return said;
}

/* T has the threshold lowered, so that = is loud; S sets all five as they are but for the hold. */
static hoofglaze_gate called_between(hoofglaze_gate g, char call)
{
    if (call == 'R')
        return reset_between(g);
    if (call == 'T')
        return set_between(g, 0, -18, 0.125f);
    g = set_between(g, 0, g.settings.threshold.decibels, g.settings.factor.factor);
    g = set_between(g, 1, 3, 0);
    g = set_between(g, 2, 1, 0.5f);
    g = set_between(g, 3, 100, 0.75f);
    return set_between(g, HOLD, 1, 0);
}

/* Samples by their kinds, and a digit that ends a block: its count. */
static void told_by_hand(const char *script)
{
    hoofglaze_gate g = listening();
    size_t n = 0;
    for (; *script; script++) {
        const char *kind = strchr(kinds, *script);
        if (kind)
            input[n++] = samples[kind - kinds];
        else if (*script >= '0' && *script <= '9')
            g = check_quiet(g, input, n, (uint32_t)(*script - '0')), n = 0;
        else if (*script != ' ')
            g = called_between(g, *script);
    }
}

static void by_hand(void)
{
    static const char *const scripts[] = {
        "0", "0 0 .1 1", ".1", "....4", "l0", "n0", "ll0 0", "l...3", "...l0", "..l..2", "l.l.n0", "=1",
        "l=1 =2", "l.1 ..3 .l.1 .2", "........8 .9 l0 .1", ".1 .2 .3 .4 l0 l0 .1", "...3 R0 0 ..2",
        "l..2 R .1", "R0 l0 R0", "..2 S2 .3 l0 S0 .1 S .2", "=1 T1 =0 .1 S1 l=0", "l.1 T .2 R T S ..2",
    };
    group("gate: the quiet count by hand, in each form of a block");
    for (int i = 0; i < COUNT(scripts); i++)
        told_by_hand(scripts[i]);
}

/* ---- refused */

static void check_refused(hoofglaze_gate g, size_t n, size_t m, uint32_t number, size_t place)
{
    for (int i = 0; i < FORMS; i++) {
        hoofglaze_gate_answered a = forms[i].run(g, input, n, output, m);
        check_answer(forms[i].name, a.answer, number, place, 0, 0);
        check_gate(forms[i].name, &a.gate, &g);
    }
}

static void check_refused_settings(hoofglaze_gate g, uint32_t number, const char *name, float value,
                                   float worked)
{
    const uint8_t *bytes = (const uint8_t *)name;
    check_told("gate_set", hoofglaze_gate_set(g, bytes, strlen(name), value, worked), number, g);
    check_told("gate_set_in_place", set_in_place(g, name, strlen(name), value, worked), number, g);
}

/* By 9, of a gate whose counter is too high. */
static void check_refused_gate(hoofglaze_gate g)
{
    g.registers.counter = 96001;
    hoofglaze_gate_answered lying = {.gate = g};
    lying.answer = hoofglaze_gate_reset_in_place(&lying.gate);
    check_told("gate_reset_in_place", lying, 9, g);
    check_told("gate_reset", hoofglaze_gate_reset(g), 9, g);
    check_refused_settings(g, 9, "ratio", 3, 0);
    check_answer("gate_read", hoofglaze_gate_read(g, (const uint8_t *)"hold", 4), 9, 0, 0, 0);
    check_refused(g, 0, 0, 9, 0);
    check_refused(g, 3, 3, 9, 0);
    check_refused(g, 3, 2, 9, 0);
}

/* The blocks begin with a loud sample, and their third is refused. */
static void check_refusals(hoofglaze_gate g)
{
    memset(input, 0, sizeof input);
    input[0] = 1;
    input[2] = 65;
    check_refused(g, 3, 3, 6, 2);
    check_refused(g, ROOM, ROOM, 8, 0);
    check_refused(g, 2, 3, 7, 0);
    check_refused(g, 2, 0, 7, 0);
    check_refused_settings(g, 1, "quiet", 3, 0);
    check_refused_settings(g, 3, "hold", -1, 0);
    check_refused_settings(g, 4, "attack", 3, 1);
    check_answer("gate_read", hoofglaze_gate_read(g, (const uint8_t *)"quiet", 5), 1, 0, 0, 0);
    check_refused_gate(g);
}

/* ---- kept, and at the top */

static uint32_t counted_on(uint32_t quiet, size_t n)
{
    return n < UINT32_MAX - quiet ? quiet + (uint32_t)n : UINT32_MAX;
}

static void kept(uint32_t quiet)
{
    static const size_t lengths[] = {0, 1, 2, 4, 5, 6, 7, LONGEST};
    hoofglaze_gate g = listening();
    g.registers.quiet = quiet;
    check_refusals(g);
    for (int i = 0; i < COUNT(lengths); i++) {
        size_t n = lengths[i];
        memset(input, 0, sizeof input);
        check_quiet(g, input, n, counted_on(quiet, n));
        input[n / 2] = 1;
        if (n > 0)
            check_quiet(g, input, n, (uint32_t)(n - 1 - n / 2));
    }
    called_between(g, 'S');
    called_between(g, 'R');
}

static void kept_counts(void)
{
    static const uint32_t counts[] = {0, 1, 2, 4095, 4096, 65535, 65536, 0xffffff, 0x1000000, 0x7fffffff,
                                      0x80000000, 0xffffefff, 0xfffff000, 0xfffffff9, 0xfffffffa, 0xfffffffb,
                                      0xfffffffc, 0xfffffffd, 0xfffffffe, 0xffffffff};
    group("gate: any kept quiet count goes on; a refusal tells 0 and leaves it");
    for (int i = 0; i < COUNT(counts); i++)
        kept(counts[i]);
    for (int i = 0; i < 20; i++)
        kept((uint32_t)drawn());
}

/* One sample at a time in one form, from 4,294,967,290 on, and a loud one at last. */
static void over_the_top(const struct form *f)
{
    hoofglaze_gate g = listening();
    g.registers.quiet = 4294967290u;
    for (uint64_t i = 0; i < 12; i++) {
        float x = i < 10 ? samples[i % 2] : i == 10 ? 1.0f : 0.0f, y;
        uint64_t said = i < 5 ? 4294967291u + i : i < 10 ? 4294967295u : i - 10;
        hoofglaze_gate_answered a = f->run(g, &x, 1, &y, 1);
        check(f->name, a.answer.quiet, said, i, 1, 0);
        check(f->name, a.gate.registers.quiet, said, i, 1, 0);
        g = a.gate;
    }
}

static void at_the_top(void)
{
    group("gate: the quiet count stops at 4,294,967,295, until a sample is loud");
    hoofglaze_gate g = listening();
    for (int i = 0; i < FORMS; i++)
        over_the_top(&forms[i]);
    memset(input, 0, sizeof input);
    g.registers.quiet = 4294967290u;
    g = check_quiet(check_quiet(g, input, 10, 4294967295u), input, LONGEST, 4294967295u);
    g = check_quiet(g, input, 0, 4294967295u);
    check_quiet(reset_between(g), input, 3, 3);
    input[9] = 1;
    check_quiet(check_quiet(g, input, 10, 0), input, 9, 9);
}

void quiet_checks(void)
{
    by_hand();
    kept_counts();
    at_the_top();
}
