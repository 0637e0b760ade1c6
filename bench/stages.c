/* stages WHOSE ROW: runs one row's samples, for an instruction counter. stages offers: who may be named, those
 * with the processor's fused multiply-add only where it has one. stages nanoseconds: how long a sample takes, a
 * line for each of them and each row. stages agree: whether the library and the same steps in C give the same
 * bits. MACHINE is defined where the machine's compiler made steps, MUSL where there is musl's fma. */
#include "clock.h"

#include "stages.h"

#include <stdio.h>
#include <string.h>

#include "settings.h"
#include "steps/worked.h"

enum { SAMPLES = 4096, ROUNDS = 4, TURNS = 30 };

static float input[SAMPLES], output[ROUNDS][SAMPLES];
static uint8_t aims[ROUNDS][SAMPLES];
static hoofglaze_answer told[ROUNDS];

/* ---- samples */

/* From -1 up to 1. */
static float drawn(void)
{
    static uint64_t state = 0x9e3779b97f4a7c15;
    state ^= state << 13;
    state ^= state >> 7;
    state ^= state << 17;
    return (float)(state >> 40) * 0x1p-23f - 1;
}

/* A loud stretch, then a low one. */
static void words(void)
{
    for (int i = 0; i < SAMPLES; i++)
        input[i] = drawn() * (i < SAMPLES / 2 ? 0.5f : 0.002f);
}

static void loud(void)
{
    for (int i = 0; i < SAMPLES; i++)
        input[i] = drawn() * 0.5f;
}

/* Below the leveller's threshold. */
static void soft_talk(void)
{
    for (int i = 0; i < SAMPLES; i++)
        input[i] = drawn() * 0.01f;
}

static void silence(void)
{
    memset(input, 0, sizeof input);
}

/* ---- what each row runs */

#define STEPS(STATE, STEP, NEXT)                                  \
    for (int round = 0; round < ROUNDS; round++)                  \
        for (int i = 0; i < SAMPLES; i++) {                       \
            __typeof__(STEP(STATE, 0)) a = STEP(STATE, input[i]); \
            STATE = a.NEXT;                                       \
            output[round][i] = a.answer.value;                    \
        }

#define BLOCKS(STATE, BLOCK, NEXT)                                \
    for (int round = 0; round < ROUNDS; round++) {                \
        __typeof__(BLOCK(STATE, 0, 0, 0, 0)) a =                  \
            BLOCK(STATE, input, SAMPLES, output[round], SAMPLES); \
        STATE = a.NEXT;                                           \
        told[round] = a.answer;                                   \
    }

static void follower(const struct offer *o)
{
    hoofglaze_follower f = hoofglaze_follower_make(smoothing(RATE, 0.1), smoothing(RATE, 10)).follower;
    STEPS(f, o->follower_step, follower)
}

static void blocker(const struct offer *o)
{
    hoofglaze_blocker b = hoofglaze_blocker_make(blocking(RATE, 15)).blocker;
    STEPS(b, o->blocker_step, blocker)
}

static void gate(const struct offer *o)
{
    hoofglaze_gate g = a_gate();
    BLOCKS(g, o->gate_block, gate)
}

/* Closed, and of a level that is subnormal: there silence leaves it, as it is rounded back to itself. */
static void gate_faint(const struct offer *o)
{
    hoofglaze_gate g = a_gate();
    g.registers.level = 0x1p-142f;
    g.registers.state = 0;
    BLOCKS(g, o->gate_block, gate)
}

static void gate_record(const struct offer *o)
{
    hoofglaze_gate g = a_gate();
    for (int round = 0; round < ROUNDS; round++) {
        hoofglaze_gate_answered a =
            o->gate_record(g, input, SAMPLES, output[round], SAMPLES, aims[round], SAMPLES);
        g = a.gate;
        told[round] = a.answer;
    }
}

static void clip_hard(const struct offer *o)
{
    for (int round = 0; round < ROUNDS; round++)
        told[round] = o->clip_hard(4, input, SAMPLES, output[round], SAMPLES);
}

static void clip_triode(const struct offer *o)
{
    for (int round = 0; round < ROUNDS; round++)
        told[round] = o->clip_triode(4, input, SAMPLES, output[round], SAMPLES);
}

static void eq_flat(const struct offer *o)
{
    hoofglaze_eq e = hoofglaze_eq_make(RATE).equaliser;
    BLOCKS(e, o->eq_block, equaliser)
}

static void eq(const struct offer *o)
{
    hoofglaze_eq e = an_equaliser();
    BLOCKS(e, o->eq_block, equaliser)
}

static void tone(const struct offer *o)
{
    hoofglaze_tone t = a_tone_stack();
    BLOCKS(t, o->tone_block, tone)
}

static void saturator(const struct offer *o)
{
    hoofglaze_saturator s = a_saturator();
    BLOCKS(s, o->saturator_block, saturator)
}

static void leveller_at(const struct offer *o, float ratio)
{
    hoofglaze_leveller l = a_leveller(ratio);
    BLOCKS(l, o->leveller_block, leveller)
}

static void leveller_1(const struct offer *o)
{
    leveller_at(o, 1);
}

static void leveller_2(const struct offer *o)
{
    leveller_at(o, 2);
}

static void leveller_4(const struct offer *o)
{
    leveller_at(o, 4);
}

static const struct row {
    const char *name;
    void (*fill)(void);
    void (*run)(const struct offer *o);
} rows[] = {
    {"follower", words, follower},
    {"blocker", words, blocker},
    {"gate", words, gate},
    {"gate-silence", silence, gate},
    {"gate-faint", silence, gate_faint},
    {"gate-record", words, gate_record},
    {"hard", words, clip_hard},
    {"triode", words, clip_triode},
    {"eq", words, eq},
    {"eq-flat", words, eq_flat},
    {"tone", words, tone},
    {"saturator", words, saturator},
    {"leveller-1", loud, leveller_1},
    {"leveller-2", loud, leveller_2},
    {"leveller-4", loud, leveller_4},
    {"leveller-soft", soft_talk, leveller_4},
    {"leveller-silence", silence, leveller_4},
};

enum { ROWS = sizeof rows / sizeof *rows };

/* ---- who offers the steps */

/* A function of each signature that does nothing but return the place of its answer. */
__asm__(".text\n.globl nothing\nnothing:\n\tmovq %rdi, %rax\n\tret\n");
void nothing(void);

static struct offer none;

static void fill_none(void)
{
    void (*all[sizeof none / sizeof(void (*)(void))])(void);
    for (unsigned i = 0; i < sizeof all / sizeof *all; i++)
        all[i] = nothing;
    memcpy(&none, all, sizeof none);
}

static const struct offer library = {
    hoofglaze_follower_step, hoofglaze_blocker_step, hoofglaze_gate_block,      hoofglaze_gate_record,
    hoofglaze_clip_hard,     hoofglaze_clip_triode,  hoofglaze_eq_block,        hoofglaze_tone_block,
    hoofglaze_saturator_block, hoofglaze_leveller_block,
};

static const struct {
    const char *whose;
    const struct offer *steps;
    int fused;
} offers[] = {
    {"nothing", &none, 0},
    {"hoofglaze", &library, 0},
    {"kit-soft", &kit_soft, 0},
    {"kit-hardware", &kit_hardware, 1},
#ifdef MUSL
    {"kit-musl", &kit_musl, 0},
#endif
#ifdef MACHINE
    {"soft", &soft, 0},
    {"hardware", &hardware, 1},
#endif
#if defined MACHINE && defined MUSL
    {"musl", &musl, 0},
#endif
};

/* How many there are, and the first of them whose steps are in C. */
enum { OFFERS = sizeof offers / sizeof *offers, IN_C = 2 };

static int fused(void)
{
    unsigned a = 1, b, c, d;
    __asm__("cpuid" : "+a"(a), "=b"(b), "=c"(c), "=d"(d));
    return (c >> 12 & c >> 27 & 1) == 1;
}

static int runs(int offer)
{
    return !offers[offer].fused || fused();
}

static int name_offers(void)
{
    for (int i = 0; i < OFFERS; i++)
        if (runs(i))
            printf("%s\n", offers[i].whose);
    return 0;
}

/* ---- nanoseconds, with the loop around the call: the quickest of some turns, which all but the one that does
 * nothing take by rotation, and of which the first only warms up */

static void time_row(const struct row *row)
{
    double least[OFFERS] = {0};
    row->fill();
    for (int turn = 0; turn <= TURNS; turn++)
        for (int i = 1; i < OFFERS; i++) {
            if (!runs(i))
                continue;
            double began = now();
            row->run(offers[i].steps);
            double took = (now() - began) / (ROUNDS * SAMPLES);
            least[i] = turn <= 1 || took < least[i] ? took : least[i];
        }
    for (int i = 1; i < OFFERS; i++)
        if (runs(i))
            printf("%s %s %.2f\n", offers[i].whose, row->name, least[i]);
}

static int nanoseconds(void)
{
    for (const struct row *row = rows; row < rows + ROWS; row++)
        time_row(row);
    return 0;
}

/* ---- agreement */

/* How many samples, aims and answers of a row differ from the library's. */
static int apart(const struct row *row, const struct offer *o)
{
    static float expected[ROUNDS][SAMPLES];
    static uint8_t aimed[ROUNDS][SAMPLES];
    hoofglaze_answer said[ROUNDS];
    int differ = 0;
    memset(told, 0, sizeof told);
    memset(aims, 0xff, sizeof aims);
    row->run(&library);
    memcpy(expected, output, sizeof expected);
    memcpy(aimed, aims, sizeof aimed);
    memcpy(said, told, sizeof said);
    memset(output, 0xff, sizeof output);
    memset(aims, 0xff, sizeof aims);
    row->run(o);
    for (int i = 0; i < ROUNDS; i++) {
        differ += said[i].number != 0 || told[i].number != 0 || told[i].count != said[i].count ||
                  told[i].quiet != said[i].quiet;
        for (int j = 0; j < SAMPLES; j++)
            differ += memcmp(&output[i][j], &expected[i][j], sizeof(float)) != 0 || aims[i][j] != aimed[i][j];
    }
    return differ;
}

static int agree(void)
{
    int differ = 0;
    for (const struct row *row = rows; row < rows + ROWS; row++) {
        row->fill();
        for (int i = IN_C; i < OFFERS; i++) {
            int more = runs(i) ? apart(row, offers[i].steps) : 0;
            if (more)
                printf("%s, %s: %d differ\n", offers[i].whose, row->name, more);
            differ += more;
        }
    }
    printf("stages: %d samples on which the library and the steps in C differ%s\n", differ,
           fused() ? "" : " (hardware fma: this processor has none)");
    return differ != 0;
}

static int run_row(const char *whose, const char *name)
{
    for (int i = 0; i < OFFERS; i++)
        for (const struct row *row = rows; row < rows + ROWS; row++)
            if (strcmp(whose, offers[i].whose) == 0 && strcmp(name, row->name) == 0) {
                row->fill();
                row->run(offers[i].steps);
                return 0;
            }
    return 2;
}

int main(int count, char **words)
{
    fill_none();
    if (count == 2 && strcmp(words[1], "agree") == 0)
        return agree();
    if (count == 2 && strcmp(words[1], "offers") == 0)
        return name_offers();
    if (count == 2 && strcmp(words[1], "nanoseconds") == 0)
        return nanoseconds();
    return count == 3 ? run_row(words[1], words[2]) : 2;
}
