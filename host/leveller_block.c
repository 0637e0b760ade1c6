/* Checks of the leveller's blocks: gains reckoned by hand and with exact roots, document 02's step bit for bit,
 * levels at the threshold and at 1e-10, what no output may be larger than, and a signal cut anywhere. */
#include <math.h>

#include "leveller.h"

/* 1e-10, below which no level's input lies */
#define LEAST 0x2edbe6ffu

enum { ROUNDS = 6, STATES = 40, SIZES = 400, SIGNAL = 3 * LONGEST };

/* ---- states and signals */

/* A leveller whose level is the size of the latest sample. */
static hoofglaze_leveller at_once(float factor, float ratio, float makeup)
{
    hoofglaze_leveller l = hoofglaze_leveller_make(48000, 0, 0).leveller;
    leveller_set_typed(&l, 0, 0, factor);
    leveller_set_typed(&l, 1, ratio, 0);
    leveller_set_typed(&l, 4, makeup, 0);
    return l;
}

/* Soft talk, then loud, then silence. */
static void talk(void)
{
    for (int i = 0; i < ROOM; i++) {
        uint32_t sign = drawn() & SIGN, part = (uint32_t)i * 3 / ROOM;
        uint32_t size = part == 0 ? between(0x39000000, 0x3b000000) : between(0x3d800000, ONE);
        input[i] = float_of(sign + (part == 2 ? 0 : size));
    }
}

/* ---- answers that the steps in C have no part in */

static void gains_by_hand(void)
{
    static const struct {
        float sample, factor, ratio, makeup, output;
    } rows[] = {
        {1, 0.0625f, 1, 1, 1},        {1, 0.0625f, 2, 1, 0.25f},     {1, 0.0625f, 4, 1, 0.125f},
        {-1, 0.0625f, 4, 4, -0.5f},   {0.5f, 0.125f, 2, 1, 0.25f},   {0.5f, 0.03125f, 4, 2, 0.125f},
        {64, 0x1p-14f, 1, 1, 64},     {64, 0x1p-14f, 2, 1, 0.0625f}, {64, 0x1p-14f, 4, 1, 0x1p-9f},
        {64, 1, 1, 4, 256},           {-64, 0x1p-14f, 1, 4, -256},   {64, 1, 2, 4, 32},
        {64, 0.25f, 4, 4, 4},         {0.25f, 0.25f, 4, 1, 0.25f},   {0.125f, 0.25f, 2, 3, 0.375f},
        {0x1p-14f, 1, 4, 4, 0x1p-12f}, {0, 0x1p-14f, 4, 4, 0},       {-0.0f, 0x1p-14f, 2, 1, -0.0f},
        {64, 0x1p-14f, 4, 0, 0},      {-64, 1, 2, 0, -0.0f},         {64, 1, 2, -0.0f, -0.0f},
        {-64, 1, 1, -0.0f, 0},
    };
    group("leveller: gains by hand");
    for (int i = 0; i < COUNT(rows); i++) {
        hoofglaze_leveller l = at_once(rows[i].factor, rows[i].ratio, rows[i].makeup);
        check_answer("block", leveller.block(&l, &rows[i].sample, 1, output, 1), 0, 0, 0, 0);
        check("block's output", bytes32(output[0]), bytes32(rows[i].output), i, 0, 0);
    }
}

/* Each operation reckoned in whole numbers and rounded once, roots by squares. */
static void known_answers(void)
{
    static const uint32_t answers[RATIOS][KNOWN] = {
        {0x3fd9999a, 0x3f59999a, 0xbed9999a, 0x00000000, 0x80000000,
         0x42d9999a, 0xc2d9999a, 0x0001d9e3, 0x3fa33334, 0xb9324207},
        {0x3f247d7b, 0x3ea6e43f, 0xbe2c6eba, 0x00000000, 0x80000000,
         0x40a434eb, 0xc09035bd, 0x000014b1, 0x3d7028c1, 0xb70a40ef},
        {0x3eca40d2, 0x3e4eb2cd, 0xbdd913c7, 0x00000000, 0x80000000,
         0x3f8ea526, 0xbf6acc21, 0x00000453, 0x3c4e00ca, 0xb5f38315},
    };
    group("leveller: the answers of exact arithmetic");
    for (int i = 0; i < RATIOS; i++) {
        hoofglaze_leveller l = hoofglaze_leveller_make(48000, 0.3f, 0.9f).leveller;
        leveller_set_typed(&l, 0, -20, 0.1f);
        leveller_set_typed(&l, 1, float_of(good_ratio[i]), 0);
        leveller_set_typed(&l, 4, 1.7f, 0);
        check_known(&leveller, &l, answers[i]);
        check("block's level", bytes32(l.registers.level), 0x422a3bb9, i, 0, 0);
    }
}

/* ---- blocks against the formulas */

/* Of the samples that were last run. No output is a NaN either. */
static void check_sizes(float makeup, size_t samples)
{
    size_t larger = 0;
    for (size_t i = 0; i < samples; i++)
        larger += !(fabsf(output[i]) <= fabsf(input[i]) * makeup);
    check("outputs larger than input times makeup", larger, 0, bytes32(makeup), samples, 0);
}

static void check_rounds(hoofglaze_leveller l, int first)
{
    static const size_t lengths[] = {0, 1, 2, 3, 480, LONGEST - 1, LONGEST};
    for (int i = 0; i < ROUNDS; i++) {
        size_t samples = lengths[(first + i) % COUNT(lengths)];
        (first + i) % 2 ? talk() : draw_input();
        check_done(&leveller, &l, samples);
        check_sizes(l.settings.makeup.factor, samples);
    }
}

/* Each ratio at both ends of the threshold's factor and of makeup; what is beyond the lists stays as drawn. */
static void blocks(void)
{
    static const uint32_t factors[] = {LEAST_FACTOR, ONE}, makeups[] = {0, SIGN, ONE, FOUR};
    group(leveller.groups[1]);
    for (int i = 0; i < RATIOS; i++)
        for (int j = 0; j <= COUNT(factors); j++)
            for (int k = 0; k <= COUNT(makeups); k++) {
                hoofglaze_leveller l;
                leveller.draw(&l);
                leveller.put(&l, RATIO, good_ratio[i]);
                if (j < COUNT(factors))
                    leveller.put(&l, FACTOR, factors[j]);
                if (k < COUNT(makeups))
                    leveller.put(&l, MAKEUP, makeups[k]);
                check_rounds(l, i + j + k);
            }
}

/* Levels at the threshold's factor and up to some floats next to it: below it and at it the gain is 1. */
static void over_one(void)
{
    group("leveller: levels at the threshold and next to it");
    for (int i = 0; i < 10 * RATIOS; i++) {
        uint32_t factor = i < 3 ? LEAST_FACTOR : i < 6 ? ONE : between(LEAST_FACTOR, ONE);
        hoofglaze_leveller l = at_once(float_of(factor), float_of(good_ratio[i % RATIOS]), 1);
        for (int next = -6; next <= 6; next++) {
            input[0] = float_of((factor + (uint32_t)next) | (drawn() & SIGN));
            check_done(&leveller, &l, 1);
            if (next <= 0)
                check("block's output", bytes32(output[0]), bytes32(input[0]), factor, i % RATIOS, 0);
        }
    }
}

/* Rising at 1/2 or above keeps such a level; falling below it may not. */
static void met_level(void)
{
    group("leveller: samples as large as the level");
    for (int i = 0; i < SIZES; i++) {
        hoofglaze_leveller l;
        leveller.draw(&l);
        leveller.put(&l, i % 2 ? RISING : FALLING, between(0x3d000000, HALF));
        leveller.put(&l, i % 2 ? FALLING : RISING, between(HALF, BELOW_ONE));
        leveller.put(&l, LEVEL, between(0x3d000000, SIXTY_FOUR));
        input[0] = i % 4 < 2 ? l.registers.level : -l.registers.level;
        check_done(&leveller, &l, 1);
    }
}

static void least_level(void)
{
    static const uint32_t sizes[] = {0, 1, 0x007fffff, 0x00800000, LEAST - 1, LEAST, LEAST + 1, 0x2f000000};
    group("leveller: levels at 1e-10 and next to it");
    for (int i = 0; i < 2 * COUNT(sizes); i++) {
        uint32_t size = sizes[i / 2];
        hoofglaze_leveller l = at_once(0x1p-14f, 4, 1);
        input[0] = float_of(size + (i % 2 ? SIGN : 0));
        check_done(&leveller, &l, 1);
        check("block's level", bytes32(l.registers.level), size < LEAST ? LEAST : size, size, 0, 0);
        check("block's output", bytes32(output[0]), bytes32(input[0]), size, 0, 0);
    }
}

/* At ratio 1 and makeup 1, whatever else is set and whatever the level is. */
static void passed_on(void)
{
    group("leveller: at ratio 1 and makeup 1 outputs are inputs, bit for bit");
    for (int i = 0; i < STATES; i++) {
        hoofglaze_leveller l;
        size_t other = 0;
        leveller.draw(&l);
        l.settings.ratio = l.settings.makeup.factor = 1;
        draw_input();
        check_answer("block", leveller.block(&l, input, LONGEST, output, LONGEST), 0, 0, 0, 0);
        for (int j = 0; j < LONGEST; j++)
            other += bytes32(output[j]) != bytes32(input[j]);
        check("outputs other than inputs", other, 0, i, 0, 0);
    }
}

static void refused_blocks(void)
{
    group(leveller.groups[0]);
    for (int i = 0; i < RATIOS; i++) {
        hoofglaze_leveller l;
        leveller.draw(&l);
        leveller.put(&l, RATIO, good_ratio[i]);
        check_refused_blocks(&leveller, &l);
    }
}

/* ---- a signal longer than a block, cut where blocks end, and anywhere */

static float signal[SIGNAL], whole[SIGNAL], pieces[SIGNAL];

static void draw_signal(void)
{
    for (int i = 0; i < SIGNAL; i += LONGEST) {
        i / LONGEST % 2 ? talk() : draw_input();
        memcpy(signal + i, input, LONGEST * sizeof *input);
    }
}

/* Runs the signal in blocks of at most so many samples, or of drawn lengths, each state kept as bytes. */
static void run(hoofglaze_leveller *l, float *to, size_t most)
{
    unsigned char kept[sizeof *l];
    for (size_t at = 0, n; at < SIGNAL; at += n) {
        n = most ? most : drawn() % 4 ? drawn() % 8 : drawn() % (LONGEST + 1);
        n = n < SIGNAL - at ? n : SIGNAL - at;
        check_answer("block", leveller.block(l, signal + at, n, to + at, n), 0, 0, 0, 0);
        memcpy(kept, l, sizeof kept);
        memset(l, 0xaa, sizeof *l);
        memcpy(l, kept, sizeof *l);
    }
}

static void cuts(void)
{
    group(leveller.groups[3]);
    for (int i = 0; i < STATES; i++) {
        hoofglaze_leveller l, cut;
        size_t other = 0;
        leveller.draw(&l);
        cut = l;
        draw_signal();
        run(&l, whole, LONGEST);
        run(&cut, pieces, i == 0 ? 1 : 0);
        check_state(&leveller, "the last state", &cut, &l);
        for (int j = 0; j < SIGNAL; j++)
            other += bytes32(pieces[j]) != bytes32(whole[j]);
        check("outputs of a cut signal", other, 0, i, 0, 0);
    }
}

void leveller_block_checks(void)
{
    gains_by_hand();
    known_answers();
    refused_blocks();
    blocks();
    over_one();
    met_level();
    least_level();
    passed_on();
    cuts();
}
