/* Checks of the quiet count over long signals. Which samples are loud, another gate says, whose hold is 0: it
 * aims open at those and at no other. And what the count says of the aim. */
#include <stdio.h>

#include "gate.h"

enum { SESSIONS = 60, CALLS = 40, SINGLE = 400 };

/* ---- the count against the loud samples */

/* A gate, and one with the same numbers but a hold of 0; and how many samples came since the latest that it
 * aimed open at. */
struct pair {
    hoofglaze_gate gate, unheld;
    uint32_t since;
};

/* How many samples are loud, how many aren't, and how many of those came in a row at most. */
static unsigned long loud, other, longest;

static struct pair set_up(void)
{
    hoofglaze_gate g = made(8000, float_of(between(0, BELOW_ONE)), float_of(between(0, BELOW_ONE)));
    g = set_typed(g, 0, -12, float_of(between(0x3c000000, ONE))).gate;
    return (struct pair){set_typed(g, HOLD, (float)(drawn() % 4000) / 8, 0).gate,
                         set_typed(g, HOLD, 0, 0).gate, 0};
}

/* Any setting of both, but a hold of the one alone. */
static void set_some(struct pair *p)
{
    static const float values[NAMED] = {-20, 7, 3, 40, 2.5f};
    int i = (int)(drawn() % NAMED);
    float worked = float_of(between(0x3c000000, BELOW_ONE));
    p->gate = set_typed(p->gate, i, values[i], worked).gate;
    if (i != HOLD)
        p->unheld = set_typed(p->unheld, i, values[i], worked).gate;
}

static void reset_both(struct pair *p)
{
    p->gate = hoofglaze_gate_reset(p->gate).gate;
    p->unheld = hoofglaze_gate_reset(p->unheld).gate;
    p->since = 0;
}

static void count_on(struct pair *p, const uint8_t *aims, size_t n)
{
    for (size_t i = 0; i < n; i++) {
        p->since = aims[i] ? 0 : p->since + 1;
        loud += aims[i];
        other += !aims[i];
        longest = p->since > longest ? p->since : longest;
    }
}

/* Now and then of silence, so that stretches go through several. */
static void block_of(struct pair *p)
{
    static uint8_t aims[LONGEST];
    size_t n = drawn() % 4 ? drawn() % (LONGEST + 1) : drawn() % 8;
    draw_input();
    if (drawn() % 5 < 3)
        memset(input, 0, sizeof input);
    hoofglaze_gate_answered a = hoofglaze_gate_record(p->unheld, input, n, output, n, aims, n);
    count_on(p, aims, n);
    check_block_answer("a gate without a hold", a.answer, a.answer.count, p->since);
    p->unheld = a.gate;
    p->gate = check_quiet(p->gate, input, n, p->since);
}

static void against_loud_samples(void)
{
    group("gate: the quiet count against the samples that a gate without a hold aims open at");
    for (int i = 0; i < SESSIONS; i++) {
        struct pair p = set_up();
        for (int j = 0; j < CALLS; j++) {
            uint64_t which = drawn() % 10;
            if (which == 0)
                reset_both(&p);
            else if (which < 3)
                set_some(&p);
            else
                block_of(&p);
        }
    }
    printf("  %lu samples loud, %lu not, up to %lu of them in a row\n", loud, other, longest);
    check("loud samples", loud > 10000, 1, loud, 0, 0);
    check("other samples", other > 10000, 1, other, 0, 0);
    check("a stretch through blocks", longest > 2 * LONGEST, 1, longest, 0, 0);
}

/* ---- the aim by the count: open exactly if a sample was loud, and the count is 0 or below the hold then */

struct held_gate {
    hoofglaze_gate gate;
    uint64_t hold, hold_then; /* in samples, now and at the latest loud sample */
    int was_loud;
};

/* Holds of 0 to 23 samples. */
static void hold_anew(struct held_gate *h)
{
    hoofglaze_gate_answered a = set_typed(h->gate, HOLD, (float)(drawn() % 24) / 8, 0);
    h->gate = a.gate;
    h->hold = a.answer.samples;
}

static void aim_at(struct held_gate *h, float x, unsigned long *seen)
{
    float y;
    hoofglaze_answer a = hoofglaze_gate_block_in_place(&h->gate, &x, 1, &y, 1);
    if (a.quiet == 0) {
        h->was_loud = 1;
        h->hold_then = h->hold;
    }
    size_t open = h->was_loud && (a.quiet == 0 || a.quiet < h->hold_then);
    check("the aim by the quiet count", a.count, open, a.quiet, h->hold_then, h->was_loud);
    seen[a.quiet == 0 ? 0 : open ? 1 : 2]++;
}

static void aims_by_count(void)
{
    unsigned long seen[3] = {0, 0, 0};
    group("gate: the aim by the quiet count and the hold");
    for (int i = 0; i < SESSIONS; i++) {
        struct held_gate h = {.gate = set_up().gate};
        hold_anew(&h);
        draw_input();
        for (int j = 0; j < SINGLE; j++) {
            if (drawn() % 64 == 0)
                hold_anew(&h);
            if (drawn() % 128 == 0)
                h = (struct held_gate){hoofglaze_gate_reset(h.gate).gate, h.hold, 0, 0};
            aim_at(&h, input[j], seen);
        }
    }
    printf("  %lu samples loud, %lu held, %lu closed\n", seen[0], seen[1], seen[2]);
    for (int i = 0; i < 3; i++)
        check("aims of each kind", seen[i] >= 500, 1, i, seen[i], 0);
}

void quiet_run_checks(void)
{
    against_loud_samples();
    aims_by_count();
}
