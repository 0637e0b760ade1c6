/* Checks of blocks with a record: its aims are those of single samples, and all else is a plain block's, bit
 * for bit; every refusal, with the state, the output and the aims that it leaves. The three buffers lie at an
 * end of what can be read or written, so that nothing can be touched behind two of them and before one, then
 * the other way; on their other sides every byte must stay. */
#include <stdio.h>

#include "gate.h"
#include "lent.h"

enum { RECORDED = 30, BESIDE = 64 };

/* What the output and the aims are before a call with the bytes beside them, and must be afterwards. */
static uint8_t said_output[BESIDE + 4 * ROOM], said_aims[BESIDE + ROOM];

static float blocked[ROOM];
static uint8_t aimed[ROOM];

/* A call, and what is said of it: the answer and the gate, and for a done one blocked and aimed. */
struct record {
    hoofglaze_gate gate;
    size_t samples, places, bytes;
    hoofglaze_gate_answered said;
};

/* No aim is such a byte. */
static void prepare(uint8_t *said, uint8_t *given, size_t bytes, uint8_t turned)
{
    for (size_t i = 0; i < bytes; i++)
        said[i] = (uint8_t)(((i * 167 + (i >> 8) * 59 + 90) ^ turned) | 4);
    memcpy(given, said, bytes);
}

static void check_bytes(const char *call, const uint8_t *given, const uint8_t *said, size_t bytes, size_t n)
{
    size_t wrong = 0, first = bytes;
    for (size_t i = bytes; i-- > 0;)
        if (given[i] != said[i])
            wrong++, first = i;
    check(call, wrong, 0, n, first, bytes);
}

/* One of the two written buffers begins with the room and the other ends with it; so does the input with what
 * can be read, at the side of the output. */
static void check_at(const struct record *r, int output_at_end)
{
    size_t places = 4 * r->places, all = BESIDE + places, marks = BESIDE + r->bytes, end = can_lend();
    size_t before = output_at_end ? BESIDE : 0, behind = output_at_end ? 0 : BESIDE;
    uint8_t *to = room_at(output_at_end ? end - all : 0), *aims = room_at(output_at_end ? 0 : end - marks);
    const uint8_t *from = output_at_end ? lent_at_end((const uint8_t *)input, 4 * r->samples)
                                        : lent_at(0, (const uint8_t *)input, 4 * r->samples);
    prepare(said_output, to, all, (uint8_t)before);
    prepare(said_aims, aims, marks, (uint8_t)(0xff - before));
    lent_to("hoofglaze_gate_record");
    hoofglaze_gate_answered a =
        hoofglaze_gate_record(r->gate, (const float *)from, r->samples, (float *)(to + before), r->places,
                              aims + behind, r->bytes);
    lent_to(0);
    if (r->said.answer.number == 0) {
        memcpy(said_output + before, blocked, places);
        memcpy(said_aims + behind, aimed, r->bytes);
    }
    hoofglaze_answer said = r->said.answer;
    if (said.number == 0)
        check_block_answer("gate_record", a.answer, said.count, said.quiet);
    else
        check_answer("gate_record", a.answer, said.number, said.place, 0, 0);
    check_gate("gate_record", &a.gate, &r->said.gate);
    check_bytes("gate_record's output", to, said_output, all, r->samples);
    check_bytes("gate_record's aims", aims, said_aims, marks, r->samples);
}

static void check_record(const struct record *r)
{
    if (can_lend() < LEAST_LENT)
        return;
    check_at(r, 0);
    check_at(r, 1);
}

/* ---- refused: 9, 7, 8, 6 */

static void check_refused(hoofglaze_gate g, size_t samples, size_t places, size_t bytes, uint32_t number,
                          size_t place)
{
    check_record(&(struct record){g, samples, places, bytes, {g, {.number = number, .place = place}}});
}

void check_record_refused_by_9(hoofglaze_gate g)
{
    check_refused(g, 0, 0, 0, 9, 0);
    check_refused(g, 3, 3, 3, 9, 0);
    check_refused(g, 3, 4, 3, 9, 0);
    check_refused(g, 3, 3, 2, 9, 0);
    check_refused(g, ROOM, ROOM, ROOM, 9, 0);
    float good = input[1];
    input[1] = float_of(ODD_NAN);
    check_refused(g, 3, 3, 3, 9, 0);
    check_refused(g, 3, 4, 2, 9, 0);
    input[1] = good;
}

static hoofglaze_gate at_work(void)
{
    hoofglaze_gate g = made(48000, 0.5f, 0.5f);
    g.registers = (hoofglaze_gate_registers){1.5f, 0.5f, 9, 33};
    return g;
}

/* The input holds a sample that 6 refuses: 7 by either buffer and 8 answer before it. */
static void refused_before_6(hoofglaze_gate g, size_t n)
{
    check_refused(g, n, n, n, 6, n - 1);
    check_refused(g, n, n - 1, n, 7, 0);
    check_refused(g, n, n + 1, n, 7, 0);
    check_refused(g, n, n, n - 1, 7, 0);
    check_refused(g, n, n, n + 1, 7, 0);
    check_refused(g, n, n - 1, n - 1, 7, 0);
    check_refused(g, n, 0, n, 7, 0);
    check_refused(g, n, n, 0, 7, 0);
}

static void refused_samples(void)
{
    static const uint32_t samples[] = {SIXTY_FOUR + 1, SIGN + SIXTY_FOUR + 1, INFINITE, SIGN + INFINITE,
                                       QUIET32, ODD_NAN, INFINITE + 1, INFINITE - 1};
    static const size_t places[] = {0, 1, 77, LONGEST - 2};
    hoofglaze_gate g = at_work();
    for (int i = 0; i < COUNT(samples); i++)
        for (int j = 0; j < COUNT(places); j++) {
            quiet_input();
            input[places[j]] = float_of(samples[i]);
            refused_before_6(g, places[j] + 1);
            check_refused(g, LONGEST, LONGEST, LONGEST, 6, places[j]);
            check_refused(g, ROOM, ROOM, ROOM, 8, 0);
            check_refused(g, ROOM, ROOM, LONGEST, 7, 0);
            check_refused(g, ROOM, LONGEST, ROOM, 7, 0);
        }
}

/* Each three lengths, of good samples. */
static void refused_lengths(void)
{
    static const size_t lengths[] = {0, 1, 2, 3, 256, LONGEST - 1, LONGEST, ROOM};
    hoofglaze_gate g = at_work();
    quiet_input();
    for (int i = 0; i < COUNT(lengths); i++)
        for (int j = 0; j < COUNT(lengths); j++)
            for (int k = 0; k < COUNT(lengths); k++)
                if (i != j || i != k)
                    check_refused(g, lengths[i], lengths[j], lengths[k], 7, 0);
    check_refused(g, ROOM, ROOM, ROOM, 8, 0);
}

/* As many aims as samples, in 32 bits. */
static void refused_beyond_32_bits(void)
{
    const uint64_t large = (uint64_t)1 << 32;
    hoofglaze_gate g = at_work();
    uint8_t *aims = room_at(0);
    if (can_lend() < large + 3)
        return;
    for (size_t n = 0; n < 4; n++) {
        fill_output();
        memset(aims, 0x5a, 4);
        hoofglaze_gate_answered a = hoofglaze_gate_record(g, input, n, output, n, aims, large + n);
        check_told("gate_record", a, 7, g);
        check_untouched("gate_record");
        check("gate_record", memcmp(aims, "\x5a\x5a\x5a\x5a", 4), 0, n, 0, 0);
    }
}

/* ---- done */

/* The record of the samples in the input, as a block's answer and those of its single samples say it. */
static struct record expected_record(hoofglaze_gate g, size_t samples)
{
    struct record r = {g, samples, samples, samples, {.gate = g}};
    hoofglaze_gate one_by_one = g;
    r.said = hoofglaze_gate_block(g, input, samples, blocked, samples);
    for (size_t i = 0; i < samples; i++) {
        float y;
        hoofglaze_gate_answered a = hoofglaze_gate_block(one_by_one, &input[i], 1, &y, 1);
        aimed[i] = (uint8_t)a.answer.count;
        one_by_one = a.gate;
    }
    return r;
}

/* How many aims are open, closed, and other than the one before. */
static unsigned long seen[3];

static hoofglaze_gate check_recorded(hoofglaze_gate g, size_t samples)
{
    struct record r = expected_record(g, samples);
    check("gate_block", r.said.answer.number, 0, samples, 0, 0);
    check_record(&r);
    for (size_t i = 0; i < samples; i++) {
        seen[aimed[i] != 1]++;
        seen[2] += i > 0 && aimed[i] != aimed[i - 1];
    }
    return r.said.gate;
}

/* A hold of some samples, so that a block opens and closes the gate many times, and now and then none. */
static hoofglaze_gate set_up(int i)
{
    hoofglaze_gate g = made(8000, float_of(between(0, HALF)), float_of(between(0, HALF)));
    g = set_typed(g, 0, -12, float_of(between(0x3d000000, ONE))).gate;
    g = set_typed(g, 2, 1, float_of(between(HALF, BELOW_ONE))).gate;
    g = set_typed(g, 3, 100, float_of(between(HALF, BELOW_ONE))).gate;
    return set_typed(g, 4, i % 4 ? (float)(drawn() % 24) / 8 : 0, 0).gate;
}

static void done_records(void)
{
    static const size_t lengths[] = {0, 1, 2, 3, 480, LONGEST - 1, LONGEST};
    group("gate: blocks with a record against plain ones and single samples");
    for (int i = 0; i < RECORDED; i++) {
        hoofglaze_gate g = set_up(i);
        for (int j = 0; j < COUNT(lengths); j++) {
            draw_input();
            g = check_recorded(g, lengths[(i + j) % COUNT(lengths)]);
        }
    }
    printf("  %lu aims open, %lu closed, %lu turns\n", seen[0], seen[1], seen[2]);
    for (int i = 0; i < 3; i++)
        check("aims of each kind", seen[i] >= 1000, 1, i, seen[i], 0);
}

/* By hand: the level is the sample's size, the factor 1, the hold two samples. */
static void by_hand(void)
{
    static const float samples[] = {0, 2, 0, -0.0f, 1, -2, 0, 64};
    static const uint8_t aims[] = {0, 1, 1, 0, 0, 1, 1, 1};
    uint8_t given[COUNT(aims)];
    hoofglaze_gate g = set_typed(made(8000, 0, 0), 4, 0.25f, 0).gate;
    hoofglaze_gate_answered a =
        hoofglaze_gate_record(g, samples, COUNT(aims), output, COUNT(aims), given, COUNT(aims));
    check_answer("gate_record", a.answer, 0, 0, 5, 0);
    check_bytes("gate_record", given, aims, sizeof aims, 0);
    check("gate_record", a.gate.registers.counter, 2, 0, 0, 0);
}

/* A counter that a host put in: open for one sample less, and none of them is loud. */
static void counter_put_in(void)
{
    static const float silence[] = {0, 0, 0};
    static const uint8_t aims[] = {1, 0, 0};
    uint8_t given[COUNT(aims)];
    hoofglaze_gate g = made(8000, 0, 0);
    g.registers.counter = 2;
    hoofglaze_gate_answered a = hoofglaze_gate_record(g, silence, 3, output, 3, given, 3);
    check_block_answer("gate_record", a.answer, 1, 3);
    check_bytes("gate_record", given, aims, sizeof aims, 0);
}

/* A signal cut anywhere, with a plain block between two records. */
static void cut_records(void)
{
    static uint8_t whole_aims[LONGEST], aims[LONGEST];
    for (int i = 0; i < RECORDED; i++) {
        size_t n = drawn() % LONGEST, m = n + drawn() % (LONGEST - n), last = LONGEST - m;
        hoofglaze_gate g = set_up(i);
        draw_input();
        hoofglaze_gate_answered whole =
            hoofglaze_gate_record(g, input, LONGEST, blocked, LONGEST, whole_aims, LONGEST);
        hoofglaze_gate_answered a = hoofglaze_gate_record(g, input, n, output, n, aims, n);
        hoofglaze_gate_answered b = hoofglaze_gate_block(a.gate, input + n, m - n, output + n, m - n);
        hoofglaze_gate_answered c =
            hoofglaze_gate_record(b.gate, input + m, last, output + m, last, aims + m, last);
        check("count", a.answer.count + b.answer.count + c.answer.count, whole.answer.count, n, m, 0);
        check("quiet", c.answer.quiet, whole.answer.quiet, n, m, 0);
        check_gate("gate_record", &c.gate, &whole.gate);
        check_bytes("gate_record's output", (uint8_t *)output, (uint8_t *)blocked, 4 * LONGEST, n);
        check_bytes("gate_record's aims", aims, whole_aims, n, n);
        check_bytes("gate_record's aims", aims + m, whole_aims + m, last, m);
    }
}

void record_checks(void)
{
    group("gate: blocks with a record refused by 7, 8, 6");
    check("memory to lend", can_lend() >= LEAST_LENT, 1, can_lend(), 0, 0);
    refused_samples();
    refused_lengths();
    refused_beyond_32_bits();
    done_records();
    by_hand();
    counter_put_in();
    cut_records();
}
