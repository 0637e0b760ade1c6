/* The mission's own case: a quiet "not" before a loud "comfortable", through a gate with settings that a
 * box may have. Prints which spans the gate meant to pass, and holds them to document 01's words. */
#include <math.h>
#include <stdio.h>

#include "checks.h"
#include "steps/common.h"
#include "steps/worked.h"

enum { RATE = 48000, MOST = 8 * RATE, SPANS = 8, BLOCK = 4096 };

/* Where "not" ends, and where "comfortable" begins and ends: the recording is silent in between and after. */
enum { NOT = RATE * 25 / 100, COMFORTABLE = RATE * 29 / 100, END = RATE * 95 / 100 };

static uint8_t bytes[2 * MOST];
static float recording[MOST], level[MOST], output[MOST];
static uint32_t quiet[MOST];
static int samples;

/* Signed 16-bit little-endian samples at 48,000 Hz, each n/32768. */
static void read_recording(const char *path)
{
    FILE *file = fopen(path, "rb");
    check("the recording opens", file != 0, 1, 0, 0, 0);
    if (!file)
        return;
    samples = (int)(fread(bytes, 1, sizeof bytes, file) / 2);
    fclose(file);
    for (int i = 0; i < samples; i++)
        recording[i] = (float)(int16_t)(bytes[2 * i] | bytes[2 * i + 1] << 8) / 32768;
}

/* ---- settings with their worked numbers */

static hoofglaze_gate done(hoofglaze_gate_answered a)
{
    check("a setting is done", a.answer.number, 0, 0, 0, 0);
    return a.gate;
}

/* Ratio 10, attack 1 ms, release 100 ms, hold 50 ms; a follower of 0.1 and 10 ms. */
static hoofglaze_gate gate_at(float decibels)
{
    hoofglaze_factor factor = {(float)pow(10, decibels / 20)};
    hoofglaze_gate g = done(hoofglaze_gate_make(RATE, smoothing(RATE, 0.1), smoothing(RATE, 10)));
    g = done(hoofglaze_gate_set_threshold(g, (hoofglaze_decibels){decibels}, factor));
    g = done(hoofglaze_gate_set_ratio(g, 10));
    g = done(hoofglaze_gate_set_attack(g, 1, smoothing(RATE, 1)));
    g = done(hoofglaze_gate_set_release(g, 100, smoothing(RATE, 100)));
    hoofglaze_gate_answered held = hoofglaze_gate_set_hold(g, 50);
    check("the hold in samples", held.answer.samples, RATE / 20, 0, 0, 0);
    check("is exact", held.answer.word, HOOFGLAZE_EXACT, 0, 0, 0);
    return done(held);
}

/* ---- spans: where the gate aimed open */

struct span {
    int from, to; /* the first sample, and the first one after */
};

struct passage {
    struct span spans[SPANS];
    int count, open, open_in_not, open_in_comfortable;
};

static void add(struct passage *p, int i)
{
    p->open++;
    p->open_in_not += i < NOT;
    p->open_in_comfortable += i >= COMFORTABLE && i < END;
    if (p->count > 0 && p->spans[p->count - 1].to == i)
        p->spans[p->count - 1].to++;
    else if (p->count < SPANS)
        p->spans[p->count++] = (struct span){i, i + 1};
}

/* As the library counts, a sample a block; level and quiet count after each, and the output, are kept. */
static struct passage passed(hoofglaze_gate g)
{
    struct passage p = {.count = 0};
    for (int i = 0; i < samples; i++) {
        hoofglaze_answer a = hoofglaze_gate_block_in_place(&g, &recording[i], 1, &output[i], 1);
        check("a block of one sample is done", a.number, 0, i, 0, 0);
        level[i] = g.registers.level;
        quiet[i] = a.quiet;
        if (a.count == 1)
            add(&p, i);
    }
    return p;
}

/* As a record has it, in blocks. */
static struct passage recorded(hoofglaze_gate g)
{
    static float out[BLOCK];
    static uint8_t aims[BLOCK];
    struct passage p = {.count = 0};
    for (int i = 0; i < samples; i += BLOCK) {
        int n = samples - i < BLOCK ? samples - i : BLOCK;
        hoofglaze_gate_answered a = hoofglaze_gate_record(g, recording + i, n, out, n, aims, n);
        check("a block with a record is done", a.answer.number, 0, i, 0, 0);
        for (int k = 0; k < n; k++)
            if (aims[k] == 1)
                add(&p, i + k);
        g = a.gate;
    }
    return p;
}

/* As document 01 says: the level after each sample, loud above the threshold's factor; open if the latest
 * loud sample is this one or fewer than H back. */
static struct passage expected(const hoofglaze_gate_settings *s)
{
    struct passage p = {.count = 0};
    int latest = -1, hold = (int)((s->hold * 0.001f) * s->rate);
    float now = 0;
    for (int i = 0; i < samples; i++) {
        now = followed(s->rising, s->falling, now, recording[i]);
        check("level", bytes32(level[i]), bytes32(now), i, 0, 0);
        if (now > s->factor.factor)
            latest = i;
        check("quiet count", quiet[i], (uint64_t)(i - latest), i, 0, 0);
        if (latest == i || (latest >= 0 && i - latest < hold))
            add(&p, i);
    }
    return p;
}

/* The open count of whole blocks, each sample times the factor. */
static int open_count(hoofglaze_gate *g, float factor, int from, int to)
{
    static float in[BLOCK], out[BLOCK];
    size_t open = 0;
    for (int i = from; i < to; i += BLOCK) {
        int n = to - i < BLOCK ? to - i : BLOCK;
        for (int k = 0; k < n; k++)
            in[k] = recording[i + k] * factor;
        open += hoofglaze_gate_block_in_place(g, in, n, out, n).count;
    }
    return (int)open;
}

static struct passage told(float decibels)
{
    hoofglaze_gate g = gate_at(decibels), again = g;
    struct passage p = passed(g), kept = recorded(g), said = expected(&g.settings);
    check("spans", p.count, said.count, 0, 0, 0);
    check("a record's spans and counts", memcmp(&kept, &said, sizeof said), 0, kept.open, said.open, 0);
    check("samples aimed open", p.open, said.open, 0, 0, 0);
    check("open count of blocks", open_count(&again, 1, 0, samples), said.open, 0, 0, 0);
    printf("  threshold %.0f dB (factor %.4f): meant to pass", decibels, g.settings.factor.factor);
    for (int i = 0; i < p.count; i++) {
        struct span s = p.spans[i];
        check("a span's first sample", s.from, said.spans[i].from, i, 0, 0);
        check("a span's end", s.to, said.spans[i].to, i, 0, 0);
        printf("%s %.1f to %.1f ms", i ? "," : "", s.from * 1000.0 / RATE, s.to * 1000.0 / RATE);
    }
    printf(": %d of %d samples, %d of them of \"not\"\n", p.open, samples, p.open_in_not);
    return p;
}

/* ---- how loud the words are, and how loud they come out */

static float loudest(const float *x, int from, int to)
{
    float most = 0;
    for (int i = from; i < to; i++)
        most = fabsf(x[i]) > most ? fabsf(x[i]) : most;
    return most;
}

static double decibels(double factor)
{
    return 20 * log10(factor);
}

/* The root of the mean square of a word's outputs over that of its samples, in dB. */
static double left(int from, int to)
{
    double in = 0, out = 0;
    for (int i = from; i < to; i++) {
        in += (double)recording[i] * recording[i];
        out += (double)output[i] * output[i];
    }
    return decibels(sqrt(out / in));
}

static void rounded(const char *what, double given, int expected)
{
    check(what, (int)(given + 0.5), expected, 0, 0, 0);
}

/* Whether a gate at the threshold opens in a word of the recording made louder. */
static int opens(float threshold, double louder, int from, int to)
{
    hoofglaze_gate g = gate_at(threshold);
    float factor = (float)pow(10, louder / 20);
    open_count(&g, factor, 0, from);
    return open_count(&g, factor, from, to) > 0;
}

/* How loud the recording may be, in dB above what it is, for a gate that opens at "comfortable" and not at
 * "not": seen by runs a little to each side of both ends. */
static void window(float threshold, float quiet, float loud)
{
    double from = threshold - decibels(loud), to = threshold - decibels(quiet), little = 0.02;
    check("below the window", opens(threshold, from - little, COMFORTABLE, END), 0, 0, 0, 0);
    check("its lower end", opens(threshold, from + little, COMFORTABLE, END), 1, 0, 0, 0);
    check("its upper end", opens(threshold, to - little, 0, NOT), 0, 0, 0, 0);
    check("above the window", opens(threshold, to + little, 0, NOT), 1, 0, 0, 0);
    rounded("the window, in tenths of a dB", 10 * (to - from), 22);
    printf("  so it is with the recording %.1f dB quieter to %.1f dB louder: a window of %.1f dB\n", -from, to,
           to - from);
}

/* What is left of each word by the gate that ran last. */
static void told_words(const struct passage *p)
{
    double first = left(0, NOT), second = left(COMFORTABLE, END);
    double open = 100.0 * p->open_in_comfortable / (END - COMFORTABLE);
    rounded("\"not\" out over in, in tenths of a dB below 0", -10 * first, 200);
    rounded("\"comfortable\" out over in, in tenths of a dB below 0", -10 * second, 43);
    rounded("percent of \"comfortable\" aimed open", open, 11);
    printf("  \"not\" leaves the gate at %.1f dB, \"comfortable\" at %.1f dB (root mean square, out over in),\n"
           "  aimed open at %d of its %d samples, %.0f %%\n",
           first, second, p->open_in_comfortable, END - COMFORTABLE, open);
}

/* ---- the same gate behind a leveller */

/* Threshold -20 dB, ratio 4, makeup 4; attack 1 ms, release 100 ms. */
static hoofglaze_leveller a_leveller(void)
{
    hoofglaze_leveller l = hoofglaze_leveller_make(RATE, smoothing(RATE, 1), smoothing(RATE, 100)).leveller;
    hoofglaze_factor factor = {(float)pow(10, -20.0 / 20)};
    hoofglaze_leveller_answered a = hoofglaze_leveller_set_threshold(l, (hoofglaze_decibels){-20}, factor);
    check("the leveller's threshold is set", a.answer.number, 0, 0, 0, 0);
    a = hoofglaze_leveller_set_ratio(a.leveller, 4);
    check("the leveller's ratio is set", a.answer.number, 0, 0, 0, 0);
    a = hoofglaze_leveller_set_makeup(a.leveller, (hoofglaze_factor){4});
    check("the leveller's makeup is set", a.answer.number, 0, 0, 0, 0);
    return a.leveller;
}

/* What the leveller makes of the recording takes its place. */
static void level_recording(void)
{
    hoofglaze_leveller l = a_leveller();
    for (int i = 0; i < samples; i += BLOCK) {
        int n = samples - i < BLOCK ? samples - i : BLOCK;
        hoofglaze_leveller_answered a = hoofglaze_leveller_block(l, recording + i, n, output + i, n);
        check("a leveller's block is done", a.answer.number, 0, i, 0, 0);
        l = a.leveller;
    }
    memcpy(recording, output, samples * sizeof *recording);
}

/* Makeup alone would bring the loudest samples beyond full scale. */
static void told_levelled(void)
{
    float alone = 4 * loudest(recording, 0, samples);
    level_recording();
    float most = loudest(recording, 0, samples);
    rounded("the loudest sample by makeup alone, in hundredths", 100 * alone, 123);
    rounded("the loudest sample levelled, in hundredths", 100 * most, 84);
    printf("  a leveller before the gate (threshold -20 dB, ratio 4, makeup 4) leaves the loudest sample at %.2f\n"
           "  of full scale, where makeup alone would have it at %.2f; the same gate behind it:\n",
           most, alone);
    struct passage p = told(-12);
    rounded("percent of \"not\" aimed open", 100.0 * p.open_in_not / NOT, 52);
    rounded("percent of \"comfortable\" aimed open", 100.0 * p.open_in_comfortable / (END - COMFORTABLE), 61);
}

void mission_checks(const char *path)
{
    group("mission: a quiet \"not\" before a loud \"comfortable\"");
    read_recording(path);
    struct passage heard = told(-40), missed = told(-12);
    float quiet = loudest(level, 0, NOT), loud = loudest(level, COMFORTABLE, END);
    check("silence between the words", bytes32(loudest(recording, NOT, COMFORTABLE)), 0, 0, 0, 0);
    check("silence after them", bytes32(loudest(recording, END, samples)), 0, 0, 0, 0);
    check("level of \"not\"", quiet > 0.01f && quiet < 0.25f, 1, bytes32(quiet), 0, 0);
    check("level of \"comfortable\"", loud > 0.26f, 1, bytes32(loud), 0, 0);
    check("all of \"not\" passes", heard.spans[0].from < RATE / 100 && heard.spans[0].to > NOT, 1, 0, 0, 0);
    check("none of \"not\" passes", missed.open_in_not, 0, 0, 0, 0);
    check("\"comfortable\" passes", missed.open > 0, 1, 0, 0, 0);
    printf("  the level rises to %.1f dB in \"not\" and to %.1f dB in \"comfortable\":\n"
           "  a threshold between them aims open at no sample of the first word, and at some of the second\n",
           decibels(quiet), decibels(loud));
    told_words(&missed);
    window(-12, quiet, loud);
    told_levelled();
}
