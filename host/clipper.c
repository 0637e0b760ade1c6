/* Checks of the clipper's two block calls: each refusal with its number and place, an output buffer
 * that a refusal leaves to the byte, and done blocks as raw bits. */
#include "checks.h"
#include "steps/clipper.h"

#define ONE 0x3f800000u
#define SIGN 0x80000000u
#define UNTOUCHED 0xffc12345u

enum { ROOM = 4097, RANDOM = 20000 };

static const uint32_t not_finite[] = {0x7f800000, 0xff800000, 0x7fc00000, 0x7f800001, 0xffc54321};
static const uint32_t refused[] = {0x42800001, 0xc2800001, 0x7f800000, 0xff800000, 0x7fc00000, 0xff800001};

/* The Rust's answers at drive 1. */
static const uint32_t known[][2] = {
    {0x00000000, 0xbf725dda}, {0x80000000, 0xbf725dda}, {0x3dcccccd, 0xbf6f3b63}, {0xbdcccccd, 0xbf754ccc},
    {0x3f000000, 0xbf6104ea}, {0xbf000000, 0xbf7e182b}, {0x3f800000, 0xbf4c305d}, {0xbf800000, 0xbf7ffe32},
    {0x40000000, 0xbf1aa810}, {0xc0000000, 0xbf800000}, {0x40e00000, 0x3f42bcac}, {0xc0e00000, 0xbf800000},
    {0x41200000, 0x3f800000}, {0xc1200000, 0xbf800000}, {0x42800000, 0x3f800000}, {0xc2800000, 0xbf800000},
};

typedef hoofglaze_answer (*clip)(float, const float *, size_t, float *, size_t);

static float input[ROOM], output[ROOM];

static void fill(uint32_t sample)
{
    for (int i = 0; i < ROOM; i++) {
        input[i] = float_of(sample);
        output[i] = float_of(UNTOUCHED + i);
    }
}

/* A refusal: its number and place, all else 0, and every byte of the buffer as it was. */
static void refuses(clip call, const char *name, uint32_t drive, uint64_t n, uint64_t m, uint32_t number,
                    uint64_t place)
{
    hoofglaze_answer a = call(float_of(drive), input, n, output, m);
    check(name, a.number, number, drive, n, m);
    check(name, a.place, place, drive, n, m);
    check(name, a.count, 0, drive, n, m);
    check(name, a.samples, 0, drive, n, m);
    check(name, a.word, 0, drive, n, m);
    check(name, a.quiet, 0, drive, n, m);
    check(name, bytes32(a.value), 0, drive, n, m);
    for (int i = 0; i < ROOM; i++)
        check("a refused block's output", bytes32(output[i]), UNTOUCHED + i, drive, n, i);
}

static void refusals(clip call, const char *name)
{
    fill(ONE);
    refuses(call, name, ONE, 3, 2, 7, 0);
    refuses(call, name, not_finite[0], 0, 1, 7, 0);
    refuses(call, name, ONE, 4097, 4096, 7, 0);
    refuses(call, name, ONE, 4097, 4097, 8, 0);
    refuses(call, name, not_finite[2], 4097, 4097, 8, 0);
    for (unsigned i = 0; i < sizeof not_finite / sizeof *not_finite; i++) {
        refuses(call, name, not_finite[i], 3, 3, 3, 0);
        refuses(call, name, not_finite[i], 0, 0, 3, 0);
    }
    for (unsigned i = 0; i < sizeof refused / sizeof *refused; i++) {
        fill(ONE);
        input[4095] = float_of(refused[i]);
        refuses(call, name, ONE, 4096, 4096, 6, 4095);
        input[2] = float_of(refused[i]);
        refuses(call, name, ONE, 4096, 4096, 6, 2);
        refuses(call, name, not_finite[i % 5], 4096, 4096, 3, 0);
    }
}

static uint32_t one_sample(clip call, uint32_t drive, uint32_t x)
{
    input[0] = float_of(x);
    hoofglaze_answer a = call(float_of(drive), input, 1, output, 1);
    check("a done block", a.number | a.place | a.count | a.samples | a.word | a.quiet, 0, drive, x, 0);
    return bytes32(output[0]);
}

static void done(void)
{
    fill(ONE);
    hoofglaze_answer a = hoofglaze_clip_hard(float_of(ONE), input, 0, output, 0);
    check("an empty block", a.number | a.place | a.count | a.samples | a.word | a.quiet, 0, 0, 0, 0);
    check("an empty block's output", bytes32(output[0]), UNTOUCHED, 0, 0, 0);
    for (unsigned i = 0; i < sizeof known / sizeof *known; i++) {
        uint32_t x = known[i][0];
        check("hoofglaze_clip_triode", one_sample(hoofglaze_clip_triode, ONE, x), known[i][1], ONE, x, 0);
        uint32_t y = one_sample(hoofglaze_clip_hard, ONE, x);
        check("hoofglaze_clip_hard", y, bytes32(hard(1, float_of(x))), ONE, x, 0);
    }
    for (int i = 0; i < RANDOM; i++) {
        uint64_t bits = drawn();
        uint32_t x = (uint32_t)bits % 0x42800001u | (uint32_t)(bits >> 63 << 31);
        uint32_t drive = (uint32_t)(bits >> 20) % 0x7f800000u | ((uint32_t)bits & SIGN);
        uint32_t y = one_sample(hoofglaze_clip_hard, drive, x);
        check("hoofglaze_clip_hard", y, bytes32(hard(float_of(drive), float_of(x))), drive, x, 0);
        y = one_sample(hoofglaze_clip_triode, drive, x);
        check("hoofglaze_clip_triode", y, bytes32(triode(float_of(drive), float_of(x))), drive, x, 0);
        check("a triode's output is from -1 to 1", (y & ~SIGN) <= ONE, 1, drive, x, y);
    }
}

/* A whole block is each of its samples by itself. */
static void whole_block(clip call, const char *name)
{
    static float samples[4096];
    for (int i = 0; i < 4096; i++) {
        uint64_t bits = drawn();
        samples[i] = float_of((uint32_t)bits % 0x42800001u | (uint32_t)(bits >> 63 << 31));
    }
    hoofglaze_answer a = call(float_of(ONE), samples, 4096, output, 4096);
    check(name, a.number | a.place | a.count | a.samples | a.word | a.quiet, 0, 0, 0, 0);
    for (int i = 0; i < 4096; i++) {
        uint32_t y = bytes32(output[i]);
        check(name, y, one_sample(call, ONE, bytes32(samples[i])), i, bytes32(samples[i]), 0);
    }
}

void clipper_checks(void)
{
    group("clipper: refusals");
    refusals(hoofglaze_clip_hard, "hoofglaze_clip_hard");
    refusals(hoofglaze_clip_triode, "hoofglaze_clip_triode");
    group("clipper: done blocks");
    done();
    whole_block(hoofglaze_clip_hard, "hoofglaze_clip_hard");
    whole_block(hoofglaze_clip_triode, "hoofglaze_clip_triode");
}
