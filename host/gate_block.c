/* Checks of the noise gate's blocks: document 01's step bit for bit, by value and in place; every refusal
 * with the state and the buffer that it leaves; states that 9 refuses. */
#include "gate.h"
#include "steps/gate.h"

enum { BLOCKS = 60 };

/* ---- blocks: 9, 7, 8, 6 */

/* A block that must be refused, by value and in place. */
static void check_refused(hoofglaze_gate g, size_t samples, size_t places, uint32_t number, size_t place)
{
    fill_output();
    hoofglaze_gate_answered a = hoofglaze_gate_block(g, input, samples, output, places);
    check_answer("gate_block", a.answer, number, place, 0, 0);
    check_gate("gate_block", &a.gate, &g);
    check_untouched("gate_block");
    hoofglaze_gate lying = g;
    hoofglaze_answer b = hoofglaze_gate_block_in_place(&lying, input, samples, output, places);
    check_answer("gate_block_in_place", b, number, place, 0, 0);
    check_gate("gate_block_in_place", &lying, &g);
    check_untouched("gate_block_in_place");
}

static void refused_blocks(void)
{
    group("gate: blocks refused by 7, 8, 6");
    hoofglaze_gate g = made(48000, 0.5f, 0.5f);
    g.registers = (hoofglaze_gate_registers){1.5f, 0.5f, 9, 21};
    static const uint32_t samples[] = {SIXTY_FOUR + 1, SIGN + SIXTY_FOUR + 1, INFINITE, SIGN + INFINITE,
                                       QUIET32, ODD_NAN, INFINITE + 1, INFINITE - 1};
    static const size_t places[] = {0, 1, 2, 77, LONGEST - 2, LONGEST - 1};
    for (int i = 0; i < COUNT(samples); i++)
        for (int j = 0; j < COUNT(places); j++) {
            quiet_input();
            input[places[j]] = float_of(samples[i]);
            check_refused(g, LONGEST, LONGEST, 6, places[j]);
            check_refused(g, places[j] + 1, places[j] + 1, 6, places[j]);
            input[LONGEST - 1] = float_of(ODD_NAN);
            check_refused(g, LONGEST, LONGEST, 6, places[j]);
            check_refused(g, ROOM, ROOM, 8, 0);
            check_refused(g, LONGEST, places[j], 7, 0);
            check_refused(g, places[j], LONGEST, 7, 0);
            check_refused(g, ROOM, places[j], 7, 0);
        }
}

/* ---- 9: one number at a time that couldn't have been set, made or reached */

static void check_bad_gate(hoofglaze_gate g)
{
    float odd = float_of(ODD_NAN);
    for (int i = 0; i < NAMED; i++) {
        const uint8_t *name = (const uint8_t *)named[i].name;
        size_t bytes = strlen(named[i].name);
        check_told("gate_set", hoofglaze_gate_set(g, name, bytes, 1, 0.5f), 9, g);
        check_told("typed setting", set_typed(g, i, i == 0 ? -1.0f : 1.0f, 0.5f), 9, g);
        check_told("typed setting", set_typed(g, i, odd, odd), 9, g);
        check_answer("gate_read", hoofglaze_gate_read(g, name, bytes), 9, 0, 0, 0);
    }
    check_told("gate_set", hoofglaze_gate_set(g, (const uint8_t *)"none", 4, odd, odd), 9, g);
    check_told("gate_set_in_place", set_in_place(g, "ratio", 5, 2, 0), 9, g);
    check_answer("gate_read", hoofglaze_gate_read(g, (const uint8_t *)"none", 4), 9, 0, 0, 0);
    check_told("gate_reset", hoofglaze_gate_reset(g), 9, g);
    hoofglaze_gate_answered lying = {.gate = g};
    lying.answer = hoofglaze_gate_reset_in_place(&lying.gate);
    check_told("gate_reset_in_place", lying, 9, g);
    check_refused(g, 0, 0, 9, 0);
    check_refused(g, 3, 3, 9, 0);
    check_refused(g, 3, 4, 9, 0);
    check_refused(g, ROOM, ROOM, 9, 0);
    check_record_refused_by_9(g);
}

/* The lowest and the highest that each setting may be, as bits. */
static const uint32_t lowest[SETTINGS] = {0x45fa0000, 0xc2a00000, 0x38800000, ONE, 0x3dcccccd, 0,
                                          ONE, 0, 0, 0, 0};
static const uint32_t highest[SETTINGS] = {0x483b8000, 0, ONE, 0x42c80000, 0x42c80000, BELOW_ONE,
                                           0x447a0000, BELOW_ONE, 0x43fa0000, BELOW_ONE, BELOW_ONE};

static void check_accepted(hoofglaze_gate g)
{
    hoofglaze_gate said = g;
    said.registers = (hoofglaze_gate_registers){0, 0, 0, 0};
    check_told("gate_reset", hoofglaze_gate_reset(g), 0, said);
    hoofglaze_gate_answered lying = {.gate = g};
    lying.answer = hoofglaze_gate_reset_in_place(&lying.gate);
    check_told("gate_reset_in_place", lying, 0, said);
}

static void bad_states(void)
{
    group("gate: states refused by 9, and those at their bounds");
    quiet_input();
    hoofglaze_gate g = made(48000, 0.5f, 0.25f);
    g.registers = (hoofglaze_gate_registers){64, 1, 96000, UINT32_MAX};
    check_accepted(g);
    for (int i = 0; i < SETTINGS; i++) {
        check_accepted(with_setting(g, i, lowest[i]));
        check_accepted(with_setting(g, i, highest[i]));
        check_bad_gate(with_setting(g, i, lowest[i] == 0 ? SIGN + 1 : lowest[i] + (i == 1 ? 1 : -1)));
        check_bad_gate(with_setting(g, i, highest[i] + 1));
        for (int j = 0; j < COUNT(odd); j++)
            check_bad_gate(with_setting(g, i, odd[j]));
    }
    static const uint32_t levels[] = {SIXTY_FOUR + 1, SIGN + 1, QUIET32, ODD_NAN, INFINITE};
    static const uint32_t states[] = {ONE + 1, SIGN + 1, QUIET32, ODD_NAN, INFINITE};
    static const uint64_t counters[] = {96001, 1u << 31, 1ull << 32, UINT64_MAX};
    hoofglaze_gate bad = g;
    for (int i = 0; i < COUNT(levels); i++, bad = g)
        bad.registers.level = float_of(levels[i]), check_bad_gate(bad);
    for (int i = 0; i < COUNT(states); i++, bad = g)
        bad.registers.state = float_of(states[i]), check_bad_gate(bad);
    for (int i = 0; i < COUNT(counters); i++, bad = g)
        bad.registers.counter = counters[i], check_bad_gate(bad);
    check_bad_gate(with_setting(g, 0, 0x473b8040)); /* 48,000.25 */
    check_bad_gate(hoofglaze_gate_make(0, 0, 0).gate);
}

/* ---- blocks that are done */

static hoofglaze_gate check_block(hoofglaze_gate g, size_t samples)
{
    hoofglaze_gate said = g;
    size_t count = 0, wrong = 0, nans = 0;
    for (size_t i = 0; i < samples; i++)
        count += gate_step(&said.settings, &said.registers, input[i], &expected[i]);
    fill_output();
    hoofglaze_gate lying = g;
    hoofglaze_answer b = hoofglaze_gate_block_in_place(&lying, input, samples, output, samples);
    check_block_answer("gate_block_in_place", b, count, said.registers.quiet);
    check_gate("gate_block_in_place", &lying, &said);
    for (size_t i = 0; i < ROOM; i++)
        wrong += bytes32(output[i]) != (i < samples ? bytes32(expected[i]) : buffer_bits(i));
    check("gate_block_in_place", wrong, 0, samples, 0, 0);
    fill_output();
    hoofglaze_gate_answered a = hoofglaze_gate_block(g, input, samples, output, samples);
    check_block_answer("gate_block", a.answer, count, said.registers.quiet);
    check_gate("gate_block", &a.gate, &said);
    for (size_t i = 0; i < ROOM; i++) {
        check("gate_block", bytes32(output[i]), i < samples ? bytes32(expected[i]) : buffer_bits(i),
              bytes32(input[i]), i, samples);
        nans += i < samples && output[i] != output[i];
    }
    check("NaN of gate_block", nans, 0, samples, 0, 0);
    return a.gate;
}

/* A made gate with all five settings set. */
static hoofglaze_gate set_up(void)
{
    static const float rates[] = {8000, 44100, 48000, 96000, 191999, 192000};
    static const float holds[] = {0, 0.0625f, 1, 50, 500};
    hoofglaze_gate g = made(rates[drawn() % COUNT(rates)], float_of(between(0, BELOW_ONE)),
                            float_of(between(0x3f000000, BELOW_ONE)));
    g = set_typed(g, 0, -12, float_of(between(0x3d000000, ONE))).gate;
    g = set_typed(g, 1, float_of(between(ONE, 0x42c80000)), 0).gate;
    g = set_typed(g, 2, 1, float_of(between(0x3f000000, BELOW_ONE))).gate;
    g = set_typed(g, 3, 100, float_of(between(0x3f000000, BELOW_ONE))).gate;
    return set_typed(g, 4, holds[drawn() % COUNT(holds)], 0).gate;
}

static void blocks(void)
{
    static const size_t lengths[] = {0, 1, 2, 3, 480, LONGEST - 1, LONGEST};
    group("gate: blocks against the formulas, by value and in place");
    for (int i = 0; i < BLOCKS; i++) {
        hoofglaze_gate g = set_up();
        for (int j = 0; j < COUNT(lengths); j++) {
            draw_input();
            g = check_block(g, lengths[(i + j) % COUNT(lengths)]);
        }
    }
}

/* A gate kept as bytes, and handed back: the rest of the block has the same bits. */
static void kept_states(void)
{
    group("gate: a kept state handed back works on");
    for (int i = 0; i < BLOCKS; i++) {
        hoofglaze_gate g = set_up(), handed;
        unsigned char kept[sizeof g];
        size_t first = drawn() % LONGEST, wrong = 0;
        draw_input();
        hoofglaze_gate_answered whole = hoofglaze_gate_block(g, input, LONGEST, expected, LONGEST);
        hoofglaze_gate_answered a = hoofglaze_gate_block(g, input, first, output, first);
        memcpy(kept, &a.gate, sizeof kept);
        memcpy(&handed, kept, sizeof handed);
        hoofglaze_gate_answered b = hoofglaze_gate_block(handed, input + first, LONGEST - first,
                                                         output + first, LONGEST - first);
        check("count", a.answer.count + b.answer.count, whole.answer.count, first, i, 0);
        check("quiet", b.answer.quiet, whole.answer.quiet, first, i, 0);
        check_gate("gate_block", &b.gate, &whole.gate);
        for (int j = 0; j < LONGEST; j++)
            wrong += bytes32(output[j]) != bytes32(expected[j]);
        check("gate_block", wrong, 0, first, i, 0);
    }
}

void gate_block_checks(void)
{
    refused_blocks();
    bad_states();
    blocks();
    kept_states();
}
