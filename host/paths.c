/* Checks that no call's path hangs on memory that nothing wrote: the stack below it is filled with one byte,
 * then with others, and the call takes the same number of instructions each time. They are counted one by
 * one, by the processor's trap flag. */
#define _DEFAULT_SOURCE /* for a signal's own stack */
#include <signal.h>

#include "eq.h"
#include "paths.h"

enum { BELOW = 48 << 10, BLOCK = 8, FEWEST = 20 };

/* What the stack is filled with: 0, the tags of enums, and what is none of them. */
static const uint8_t fills[] = {0, 1, 2, 3, 4, 5, 6, 7, 8, 9, 0x80, 0xff};

static volatile unsigned long steps;

static void stepped(int number)
{
    (void)number;
    steps++;
}

/* Steps are counted on a stack of their own, so that what lies below the call stays filled. */
static void count_steps(void)
{
    static uint8_t apart[64 << 10];
    const stack_t stack = {.ss_sp = apart, .ss_size = sizeof apart};
    const struct sigaction action = {.sa_handler = stepped, .sa_flags = SA_ONSTACK};
    check("a stack apart", sigaltstack(&stack, 0) | sigaction(SIGTRAP, &action, 0), 0, 0, 0, 0);
}

static const char *called;
static unsigned long first;
static int turn;

/* A block of which one sample is refused. */
static float loud[BLOCK];

void path_begin(const char *call)
{
    called = call;
    turn = -2;
}

/* The turn before the first only lets the loader find what the call uses. */
int path_again(void)
{
    if (turn == 0) {
        first = steps;
        check("steps are counted", first > FEWEST, 1, first, 0, 0);
    }
    if (turn >= 0)
        check(called, steps, first, fills[turn], 0, 0);
    steps = 0;
    return ++turn < COUNT(fills);
}

void path_fill(void)
{
    uint8_t below[BELOW];
    memset(below, fills[turn < 0 ? 0 : turn], sizeof below);
    __asm__ volatile("" : : "r"(below) : "memory");
}

/* What the calls give; nothing looks at it. */
static hoofglaze_answer answer;
static hoofglaze_gate loaded;
static hoofglaze_gate_answered gated;
static hoofglaze_eq_answered equalised;
static hoofglaze_tone_answered toned;
static hoofglaze_saturator_answered saturated;
static hoofglaze_follower_answered followed;
static hoofglaze_blocker_answered blocked;

/* Each call that is done, and one for each way through it that a refusal takes. */

static void gate_settings(hoofglaze_gate g, hoofglaze_gate bad)
{
    const hoofglaze_decibels quiet = {-12};
    const hoofglaze_factor quarter = {0.25f};
    const hoofglaze_gate_before before = {.settings = g.settings};
    SAME(gated = hoofglaze_gate_make(48000, 0.5f, 0.5f));
    SAME(gated = hoofglaze_gate_make(4, 0.5f, 0.5f));
    SAME(gated = hoofglaze_gate_make(48000, 0.5f, 1));
    SAME(loaded = hoofglaze_gate_load(before));
    SAME(gated = hoofglaze_gate_set(g, NAME("threshold"), -12, 0.25f));
    SAME(gated = hoofglaze_gate_set(g, NAME("ratio"), 3, 0));
    SAME(gated = hoofglaze_gate_set(g, NAME("attack"), 3, 0.5f));
    SAME(gated = hoofglaze_gate_set(g, NAME("release"), 3, 0.5f));
    SAME(gated = hoofglaze_gate_set(g, NAME("hold"), 3, 0));
    SAME(gated = hoofglaze_gate_set(g, NAME("hold"), 1, 0));
    SAME(gated = hoofglaze_gate_set(g, NAME("none"), 3, 0));
    SAME(gated = hoofglaze_gate_set(g, NAME("ratio"), 300, 0));
    SAME(gated = hoofglaze_gate_set(g, NAME("attack"), 3, 1));
    SAME(gated = hoofglaze_gate_set(bad, NAME("ratio"), 3, 0));
    SAME(gated = hoofglaze_gate_set_threshold(g, quiet, quarter));
    SAME(gated = hoofglaze_gate_set_ratio(g, 3));
    SAME(gated = hoofglaze_gate_set_attack(g, 3, 0.5f));
    SAME(gated = hoofglaze_gate_set_release(g, 3, 0.5f));
    SAME(gated = hoofglaze_gate_set_hold(g, 3));
    SAME(gated = hoofglaze_gate_set_hold(g, 1));
    SAME(gated = hoofglaze_gate_set_hold(g, -3));
    SAME(gated = hoofglaze_gate_set_hold(bad, 3));
    SAME(answer = hoofglaze_gate_read(g, NAME("hold")));
    SAME(answer = hoofglaze_gate_read(g, NAME("none")));
    SAME(answer = hoofglaze_gate_read(bad, NAME("hold")));
}

static void gate_blocks(hoofglaze_gate g, hoofglaze_gate bad)
{
    static hoofglaze_gate lying;
    static uint8_t aims[ROOM];
    SAME(gated = hoofglaze_gate_reset(g));
    SAME(gated = hoofglaze_gate_reset(bad));
    SAME(gated = hoofglaze_gate_block(g, input, BLOCK, output, BLOCK));
    SAME(gated = hoofglaze_gate_block(g, input, BLOCK, output, 1));
    SAME(gated = hoofglaze_gate_block(g, input, ROOM, output, ROOM));
    SAME(gated = hoofglaze_gate_block(g, loud, BLOCK, output, BLOCK));
    SAME(gated = hoofglaze_gate_block(bad, input, BLOCK, output, BLOCK));
    SAME(gated = hoofglaze_gate_record(g, input, BLOCK, output, BLOCK, aims, BLOCK));
    SAME(gated = hoofglaze_gate_record(g, input, BLOCK, output, 1, aims, BLOCK));
    SAME(gated = hoofglaze_gate_record(g, input, BLOCK, output, BLOCK, aims, 1));
    SAME(gated = hoofglaze_gate_record(g, input, ROOM, output, ROOM, aims, ROOM));
    SAME(gated = hoofglaze_gate_record(g, loud, BLOCK, output, BLOCK, aims, BLOCK));
    SAME(gated = hoofglaze_gate_record(bad, input, BLOCK, output, BLOCK, aims, BLOCK));
    SAME(answer = hoofglaze_gate_set_in_place(&g, NAME("ratio"), 3, 0));
    SAME(answer = hoofglaze_gate_set_in_place(&g, NAME("ratio"), 300, 0));
    SAME(answer = hoofglaze_gate_set_in_place(&g, NAME("hold"), 3, 0));
    SAME(answer = hoofglaze_gate_set_in_place(&g, NAME("hold"), 1, 0));
    SAME(answer = hoofglaze_gate_reset_in_place(&g));
    SAME(answer = hoofglaze_gate_reset_in_place(&bad));
    SAME((lying = g, answer = hoofglaze_gate_block_in_place(&lying, input, BLOCK, output, BLOCK)));
    SAME(answer = hoofglaze_gate_block_in_place(&g, input, BLOCK, output, 1));
}

static void clipper(void)
{
    SAME(answer = hoofglaze_clip_hard(2, input, BLOCK, output, BLOCK));
    SAME(answer = hoofglaze_clip_hard(2, input, BLOCK, output, 1));
    SAME(answer = hoofglaze_clip_hard(2, loud, BLOCK, output, BLOCK));
    SAME(answer = hoofglaze_clip_triode(2, input, BLOCK, output, BLOCK));
    SAME(answer = hoofglaze_clip_triode(float_of(INFINITE), input, BLOCK, output, BLOCK));
    SAME(answer = hoofglaze_clip_triode(2, loud, BLOCK, output, BLOCK));
}

static void eq(hoofglaze_eq e, hoofglaze_eq bad)
{
    const hoofglaze_decibels value = {3}, high = {13};
    SAME(equalised = hoofglaze_eq_make(48000));
    SAME(equalised = hoofglaze_eq_make(4));
    SAME(equalised = hoofglaze_eq_set(e, NAME("band_3"), value, plain));
    SAME(equalised = hoofglaze_eq_set(e, NAME("band_33"), value, plain));
    SAME(equalised = hoofglaze_eq_set(e, NAME("band_x"), value, plain));
    SAME(equalised = hoofglaze_eq_set(bad, NAME("band_3"), value, plain));
    SAME(equalised = hoofglaze_eq_set_band(e, 3, value, plain));
    SAME(equalised = hoofglaze_eq_set_band(e, 3, high, plain));
    SAME(equalised = hoofglaze_eq_set_band(bad, 3, value, plain));
    SAME(answer = hoofglaze_eq_read(e, NAME("band_3")));
    SAME(answer = hoofglaze_eq_read(e, NAME("band_33")));
    SAME(answer = hoofglaze_eq_read(bad, NAME("band_3")));
    SAME(equalised = hoofglaze_eq_reset(e));
    SAME(equalised = hoofglaze_eq_reset(bad));
    SAME(equalised = hoofglaze_eq_block(e, input, 2, output, 2));
    SAME(equalised = hoofglaze_eq_block(e, input, 2, output, 1));
    SAME(equalised = hoofglaze_eq_block(e, loud, BLOCK, output, BLOCK));
    SAME(equalised = hoofglaze_eq_block(bad, input, 2, output, 2));
}

static void tone(hoofglaze_tone t, hoofglaze_tone bad)
{
    const hoofglaze_factor one = {1}, three = {3};
    SAME(toned = hoofglaze_tone_make_modern(48000));
    SAME(toned = hoofglaze_tone_make_british(48000));
    SAME(toned = hoofglaze_tone_make_american(48000));
    SAME(toned = hoofglaze_tone_make_flat(4));
    SAME(toned = hoofglaze_tone_set(t, NAME("bass"), 1, 1));
    SAME(toned = hoofglaze_tone_set(t, NAME("presence"), 1, 1));
    SAME(toned = hoofglaze_tone_set(t, NAME("none"), 1, 1));
    SAME(toned = hoofglaze_tone_set(bad, NAME("bass"), 1, 1));
    SAME(toned = hoofglaze_tone_set_bass(t, 1));
    SAME(toned = hoofglaze_tone_set_mid(t, 1));
    SAME(toned = hoofglaze_tone_set_treble(t, float_of(QUIET32)));
    SAME(toned = hoofglaze_tone_set_treble(t, 1));
    SAME(toned = hoofglaze_tone_set_presence(t, 1, one));
    SAME(toned = hoofglaze_tone_set_presence(t, 1, three));
    SAME(answer = hoofglaze_tone_read(t, NAME("mid")));
    SAME(answer = hoofglaze_tone_read(t, NAME("none")));
    SAME(answer = hoofglaze_tone_read(bad, NAME("mid")));
    SAME(toned = hoofglaze_tone_reset(t));
    SAME(toned = hoofglaze_tone_reset(bad));
    SAME(toned = hoofglaze_tone_block(t, input, BLOCK, output, BLOCK));
    SAME(toned = hoofglaze_tone_block(t, input, BLOCK, output, 1));
    SAME(toned = hoofglaze_tone_block(t, loud, BLOCK, output, BLOCK));
    SAME(toned = hoofglaze_tone_block(bad, input, BLOCK, output, BLOCK));
}

static void saturator(hoofglaze_saturator s, hoofglaze_saturator bad)
{
    static const hoofglaze_saturator_crossover x;
    SAME(saturated = hoofglaze_saturator_make(48000, x, x, 0.5f, 0.5f, 0.5f));
    SAME(saturated = hoofglaze_saturator_make(48000, x, x, 0.5f, 0.5f, 1));
    SAME(saturated = hoofglaze_saturator_set(s, NAME("low_drive"), 0.5f, x));
    SAME(saturated = hoofglaze_saturator_set(s, NAME("low_freq"), 200, x));
    SAME(saturated = hoofglaze_saturator_set(s, NAME("low_freq"), 20, x));
    SAME(saturated = hoofglaze_saturator_set(s, NAME("none"), 200, x));
    SAME(saturated = hoofglaze_saturator_set(bad, NAME("low_freq"), 200, x));
    SAME(saturated = hoofglaze_saturator_set_low_drive(s, 0.5f));
    SAME(saturated = hoofglaze_saturator_set_mid_drive(s, 0.5f));
    SAME(saturated = hoofglaze_saturator_set_high_drive(s, 0.5f));
    SAME(saturated = hoofglaze_saturator_set_low_level(s, 0.5f));
    SAME(saturated = hoofglaze_saturator_set_mid_level(s, 0.5f));
    SAME(saturated = hoofglaze_saturator_set_high_level(s, 3));
    SAME(saturated = hoofglaze_saturator_set_low_freq(s, 200, x));
    SAME(saturated = hoofglaze_saturator_set_high_freq(s, 2000, x));
    SAME(saturated = hoofglaze_saturator_set_high_freq(bad, 2000, x));
    SAME(answer = hoofglaze_saturator_read(s, NAME("low_drive")));
    SAME(answer = hoofglaze_saturator_read(s, NAME("high_freq")));
    SAME(answer = hoofglaze_saturator_read(s, NAME("none")));
    SAME(answer = hoofglaze_saturator_read(bad, NAME("low_drive")));
    SAME(saturated = hoofglaze_saturator_reset(s));
    SAME(saturated = hoofglaze_saturator_reset(bad));
    SAME(saturated = hoofglaze_saturator_block(s, input, BLOCK, output, BLOCK));
    SAME(saturated = hoofglaze_saturator_block(s, input, BLOCK, output, 1));
    SAME(saturated = hoofglaze_saturator_block(s, loud, BLOCK, output, BLOCK));
    SAME(saturated = hoofglaze_saturator_block(bad, input, BLOCK, output, BLOCK));
}

static void lone(hoofglaze_follower f, hoofglaze_blocker b)
{
    hoofglaze_follower bad = {2, 2, 0};
    hoofglaze_blocker worse = {2, 0, 0};
    SAME(followed = hoofglaze_follower_make(0.5f, 0.5f));
    SAME(followed = hoofglaze_follower_make(0.5f, 1));
    SAME(followed = hoofglaze_follower_step(f, 0.5f));
    SAME(followed = hoofglaze_follower_step(bad, 0.5f));
    SAME(followed = hoofglaze_follower_reset(f));
    SAME(followed = hoofglaze_follower_reset(bad));
    SAME(blocked = hoofglaze_blocker_make(0.5f));
    SAME(blocked = hoofglaze_blocker_make(1));
    SAME(blocked = hoofglaze_blocker_step(b, 0.5f));
    SAME(blocked = hoofglaze_blocker_step(worse, 0.5f));
    SAME(blocked = hoofglaze_blocker_reset(b));
    SAME(blocked = hoofglaze_blocker_reset(worse));
}

void path_checks(void)
{
    static const hoofglaze_saturator_crossover none;
    hoofglaze_gate g = hoofglaze_gate_make(48000, 0.5f, 0.5f).gate;
    hoofglaze_eq e = hoofglaze_eq_make(48000).equaliser;
    hoofglaze_tone t = hoofglaze_tone_make_british(48000).tone;
    hoofglaze_saturator s = hoofglaze_saturator_make(48000, none, none, 0.5f, 0.5f, 0.5f).saturator;
    group("no call's path hangs on what the stack held");
    quiet_input();
    for (int i = 0; i < BLOCK; i++)
        loud[i] = i == BLOCK - 2 ? 65 : 0.5f;
    count_steps();
    gate_settings(g, hoofglaze_gate_make(0, 0, 0).gate);
    gate_blocks(g, hoofglaze_gate_make(0, 0, 0).gate);
    clipper();
    eq(e, hoofglaze_eq_make(0).equaliser);
    tone(t, hoofglaze_tone_make_flat(0).tone);
    saturator(s, hoofglaze_saturator_make(0, none, none, 0, 0, 0).saturator);
    lone(hoofglaze_follower_make(0.5f, 0.5f).follower, hoofglaze_blocker_make(0.5f).blocker);
    leveller_paths();
    wave_paths();
    signal(SIGTRAP, SIG_DFL);
}
