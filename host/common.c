/* Checks of the lone follower and the lone DC blocker: their layout, document 01's formulas bit for
 * bit, each NaN that a step writes, and what a refusal leaves. */
#include <stddef.h>

#include "checks.h"
#include "steps/common.h"

#define SIGN 0x80000000u
#define INFINITE 0x7f800000u
#define ONE 0x3f800000u
#define BELOW_ONE 0x3f7fffffu

enum { STEPS = 4000, ODD = SPECIAL + NANS };

/* Worked numbers: accepted ones, then refused ones. */
static const uint32_t good[] = {0, SIGN, 1, 0x00800000, 0x3f000000, 0x3f666666, BELOW_ONE};
static const uint32_t bad[] = {ONE, ONE + 1, SIGN + 1, SIGN + ONE, INFINITE, SIGN + INFINITE,
                               QUIET32, SIGN + QUIET32, INFINITE + 1, SIGN + INFINITE + 0x1234};

enum { GOOD = sizeof good / sizeof good[0], BAD = sizeof bad / sizeof bad[0] };

/* Any bits: special numbers, NaNs, others. */
static uint32_t any(void)
{
    int i = drawn() % (2 * ODD);
    return i < SPECIAL ? special_bits(SIGN, INFINITE, i)
           : i < ODD   ? nan_bits(SIGN, INFINITE, i - SPECIAL)
                       : (uint32_t)drawn();
}

static void layout(void)
{
    group("common: sizes and offsets");
    check("answer", sizeof(hoofglaze_answer), 40, 0, 0, 0);
    check("answer.number", offsetof(hoofglaze_answer, number), 0, 0, 0, 0);
    check("answer.value", offsetof(hoofglaze_answer, value), 4, 0, 0, 0);
    check("answer.place", offsetof(hoofglaze_answer, place), 8, 0, 0, 0);
    check("answer.count", offsetof(hoofglaze_answer, count), 16, 0, 0, 0);
    check("answer.samples", offsetof(hoofglaze_answer, samples), 24, 0, 0, 0);
    check("answer.word", offsetof(hoofglaze_answer, word), 32, 0, 0, 0);
    check("answer.quiet", offsetof(hoofglaze_answer, quiet), 36, 0, 0, 0);
    check("follower", sizeof(hoofglaze_follower), 12, 0, 0, 0);
    check("follower.attack", offsetof(hoofglaze_follower, attack), 0, 0, 0, 0);
    check("follower.release", offsetof(hoofglaze_follower, release), 4, 0, 0, 0);
    check("follower.level", offsetof(hoofglaze_follower, level), 8, 0, 0, 0);
    check("follower_answered", sizeof(hoofglaze_follower_answered), 56, 0, 0, 0);
    check("follower_answered.answer", offsetof(hoofglaze_follower_answered, answer), 16, 0, 0, 0);
    check("blocker", sizeof(hoofglaze_blocker), 12, 0, 0, 0);
    check("blocker.c", offsetof(hoofglaze_blocker, c), 0, 0, 0, 0);
    check("blocker.x1", offsetof(hoofglaze_blocker, x1), 4, 0, 0, 0);
    check("blocker.y1", offsetof(hoofglaze_blocker, y1), 8, 0, 0, 0);
    check("blocker_answered", sizeof(hoofglaze_blocker_answered), 56, 0, 0, 0);
    check("blocker_answered.answer", offsetof(hoofglaze_blocker_answered, answer), 16, 0, 0, 0);
}

/* A stage's three numbers as bits, whichever stage it is: c are those that a making takes. */
struct lone {
    uint32_t bits[3];
};

struct told {
    struct lone state;
    hoofglaze_answer answer;
};

static struct told told_follower(hoofglaze_follower_answered a)
{
    struct told t = {.answer = a.answer};
    memcpy(&t.state, &a.follower, sizeof t.state);
    return t;
}

static struct told told_blocker(hoofglaze_blocker_answered a)
{
    struct told t = {.answer = a.answer};
    memcpy(&t.state, &a.blocker, sizeof t.state);
    return t;
}

static hoofglaze_follower follower_of(struct lone s)
{
    hoofglaze_follower f;
    memcpy(&f, &s, sizeof f);
    return f;
}

static hoofglaze_blocker blocker_of(struct lone s)
{
    hoofglaze_blocker b;
    memcpy(&b, &s, sizeof b);
    return b;
}

static void check_told(const char *call, struct told given, uint32_t number, struct lone state,
                       uint32_t value)
{
    check(call, given.answer.number, number, state.bits[0], state.bits[1], state.bits[2]);
    check(call, bytes32(given.answer.value), value, state.bits[0], state.bits[1], state.bits[2]);
    check(call, given.answer.place, 0, state.bits[0], state.bits[1], state.bits[2]);
    check(call, given.answer.count, 0, state.bits[0], state.bits[1], state.bits[2]);
    check(call, given.answer.samples, 0, state.bits[0], state.bits[1], state.bits[2]);
    check(call, given.answer.word, 0, state.bits[0], state.bits[1], state.bits[2]);
    check(call, given.answer.quiet, 0, state.bits[0], state.bits[1], state.bits[2]);
    for (int i = 0; i < 3; i++)
        check(call, given.state.bits[i], state.bits[i], number, i, state.bits[0]);
}

static void check_follower_make(uint32_t attack, uint32_t release, int accepted)
{
    struct told t = told_follower(hoofglaze_follower_make(float_of(attack), float_of(release)));
    struct lone made = {{attack, release, 0}}, unmade = {{ONE, ONE, 0}};
    check_told("follower_make", t, accepted ? 0 : 4, accepted ? made : unmade, 0);
}

static void makings(void)
{
    group("common: making, done and refused by 4");
    for (int i = 0; i < GOOD + BAD; i++) {
        uint32_t c = i < GOOD ? good[i] : bad[i - GOOD];
        struct lone made = {{c, 0, 0}}, unmade = {{ONE, 0, 0}};
        struct told t = told_blocker(hoofglaze_blocker_make(float_of(c)));
        check_told("blocker_make", t, i < GOOD ? 0 : 4, i < GOOD ? made : unmade, 0);
        for (int j = 0; j < GOOD + BAD; j++)
            check_follower_make(c, j < GOOD ? good[j] : bad[j - GOOD], i < GOOD && j < GOOD);
    }
}

static void check_follower_step(struct lone s, uint32_t x)
{
    hoofglaze_follower f = follower_of(s);
    uint32_t next = bytes32(followed(f.attack, f.release, f.level, float_of(x)));
    struct lone after = {{s.bits[0], s.bits[1], next}};
    check_told("follower_step", told_follower(hoofglaze_follower_step(f, float_of(x))), 0, after, next);
}

static void check_blocker_step(struct lone s, uint32_t x)
{
    hoofglaze_blocker b = blocker_of(s);
    uint32_t y = bytes32(blocked(b.c, b.x1, b.y1, float_of(x)));
    struct lone after = {{s.bits[0], bytes32(settled(float_of(x))), y}};
    check_told("blocker_step", told_blocker(hoofglaze_blocker_step(b, float_of(x))), 0, after, y);
}

/* Every NaN and special number in each register, and as the sample. */
static void odd_registers(void)
{
    group("common: a NaN or infinity in each register and sample");
    for (int i = 0; i < ODD; i++) {
        uint32_t odd = i < SPECIAL ? special_bits(SIGN, INFINITE, i) : nan_bits(SIGN, INFINITE, i - SPECIAL);
        for (int k = 0; k < GOOD; k++) {
            uint32_t c = good[k], other = any();
            check_follower_step((struct lone){{c, good[drawn() % GOOD], odd}}, other);
            check_follower_step((struct lone){{good[drawn() % GOOD], c, other}}, odd);
            check_follower_step((struct lone){{c, c, odd}}, odd);
            check_blocker_step((struct lone){{c, odd, other}}, any());
            check_blocker_step((struct lone){{c, other, odd}}, any());
            check_blocker_step((struct lone){{c, any(), other}}, odd);
            check_blocker_step((struct lone){{c, odd, odd}}, odd);
        }
    }
}

static void refusals(void)
{
    group("common: steps and resets refused by 9 leave every bit");
    for (int i = 0; i < BAD * ODD; i++) {
        struct lone s = {{bad[i % BAD], good[i % GOOD], any()}};
        struct lone r = {{good[i % GOOD], bad[i % BAD], any()}};
        struct lone b = {{bad[i % BAD], any(), any()}};
        float x = float_of(any());
        check_told("follower_step", told_follower(hoofglaze_follower_step(follower_of(s), x)), 9, s, 0);
        check_told("follower_step", told_follower(hoofglaze_follower_step(follower_of(r), x)), 9, r, 0);
        check_told("follower_reset", told_follower(hoofglaze_follower_reset(follower_of(s))), 9, s, 0);
        check_told("follower_reset", told_follower(hoofglaze_follower_reset(follower_of(r))), 9, r, 0);
        check_told("blocker_step", told_blocker(hoofglaze_blocker_step(blocker_of(b), x)), 9, b, 0);
        check_told("blocker_reset", told_blocker(hoofglaze_blocker_reset(blocker_of(b))), 9, b, 0);
    }
}

static void resets(void)
{
    group("common: reset zeroes the registers and keeps c");
    for (int i = 0; i < GOOD * ODD; i++) {
        struct lone f = {{good[i % GOOD], good[drawn() % GOOD], any()}};
        struct lone f_after = {{f.bits[0], f.bits[1], 0}};
        struct lone b = {{good[i % GOOD], any(), any()}}, b_after = {{b.bits[0], 0, 0}};
        check_told("follower_reset", told_follower(hoofglaze_follower_reset(follower_of(f))), 0, f_after, 0);
        check_told("blocker_reset", told_blocker(hoofglaze_blocker_reset(blocker_of(b))), 0, b_after, 0);
    }
}

/* A made stage stepped on from the state that each step gave, and again from a state kept halfway. */
static void kept_states(void)
{
    group("common: a kept state handed back works on");
    for (int k = 0; k < GOOD; k++) {
        static uint32_t x[STEPS], level[STEPS], y[STEPS];
        struct lone f = told_follower(hoofglaze_follower_make(float_of(good[k]), 0.25f)).state;
        struct lone b = told_blocker(hoofglaze_blocker_make(float_of(good[k]))).state;
        struct lone f_kept = f, b_kept = b;
        for (int i = 0; i < STEPS; i++) {
            x[i] = i % 97 ? 0x3f800000 + drawn() % 0x01000000 + (drawn() & SIGN) : any();
            if (i == STEPS / 2)
                f_kept = f, b_kept = b;
            check_follower_step(f, x[i]);
            check_blocker_step(b, x[i]);
            f = told_follower(hoofglaze_follower_step(follower_of(f), float_of(x[i]))).state;
            b = told_blocker(hoofglaze_blocker_step(blocker_of(b), float_of(x[i]))).state;
            level[i] = f.bits[2], y[i] = b.bits[2];
        }
        for (int i = STEPS / 2; i < STEPS; i++) {
            f_kept = told_follower(hoofglaze_follower_step(follower_of(f_kept), float_of(x[i]))).state;
            b_kept = told_blocker(hoofglaze_blocker_step(blocker_of(b_kept), float_of(x[i]))).state;
            check("follower_step", f_kept.bits[2], level[i], k, i, x[i]);
            check("blocker_step", b_kept.bits[2], y[i], k, i, x[i]);
        }
    }
}

void common_checks(void)
{
    layout();
    makings();
    odd_registers();
    refusals();
    resets();
    kept_states();
}
