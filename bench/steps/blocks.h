/* The stages' blocks in C over host/steps, offered with the fused multiply-add and the root that the file
 * which includes this names. What a block looks at once, 9 and the clipper's 3, is left out. */
#include "steps/clipper.h"
#include "steps/eq.h"
#include "steps/gate.h"
#include "steps/leveller.h"
#include "steps/saturator.h"
#include "steps/tone.h"

#include "../stages.h"

static hoofglaze_answer refused(uint32_t number, size_t place)
{
    return (hoofglaze_answer){.number = number, .place = place};
}

/* A block's 7, 8 and 6. */
static hoofglaze_answer looked_at(const float *input, size_t samples, size_t places)
{
    if (samples != places)
        return refused(7, 0);
    if (samples > 4096)
        return refused(8, 0);
    for (size_t i = 0; i < samples; i++)
        if (!(__builtin_fabsf(input[i]) <= 64))
            return refused(6, i);
    return refused(0, 0);
}

static int is_smoothing(float c)
{
    return c >= 0 && c < 1;
}

static hoofglaze_follower_answered follower_step(hoofglaze_follower f, float x)
{
    if (!is_smoothing(f.attack) || !is_smoothing(f.release))
        return (hoofglaze_follower_answered){f, refused(9, 0)};
    f.level = followed(f.attack, f.release, f.level, x);
    return (hoofglaze_follower_answered){f, {.value = f.level}};
}

static hoofglaze_blocker_answered blocker_step(hoofglaze_blocker b, float x)
{
    if (!is_smoothing(b.c))
        return (hoofglaze_blocker_answered){b, refused(9, 0)};
    b.y1 = blocked(b.c, b.x1, b.y1, x);
    b.x1 = settled(x);
    return (hoofglaze_blocker_answered){b, {.value = b.y1}};
}

static hoofglaze_gate_answered gate_block(hoofglaze_gate g, const float *input, size_t samples,
                                          float *output, size_t places)
{
    hoofglaze_gate_answered a = {g, looked_at(input, samples, places)};
    for (size_t i = 0; a.answer.number == 0 && i < samples; i++)
        a.answer.count += gate_step(&a.gate.settings, &a.gate.registers, input[i], &output[i]);
    a.answer.quiet = a.answer.number == 0 ? a.gate.registers.quiet : 0;
    return a;
}

static hoofglaze_gate_answered gate_record(hoofglaze_gate g, const float *input, size_t samples,
                                           float *output, size_t places, uint8_t *aims, size_t bytes)
{
    hoofglaze_gate_answered a = {g, bytes == samples ? looked_at(input, samples, places) : refused(7, 0)};
    for (size_t i = 0; a.answer.number == 0 && i < samples; i++) {
        aims[i] = (uint8_t)gate_step(&a.gate.settings, &a.gate.registers, input[i], &output[i]);
        a.answer.count += aims[i];
    }
    a.answer.quiet = a.answer.number == 0 ? a.gate.registers.quiet : 0;
    return a;
}

static hoofglaze_answer clip_hard(float drive, const float *input, size_t samples, float *output,
                                  size_t places)
{
    hoofglaze_answer a = looked_at(input, samples, places);
    for (size_t i = 0; a.number == 0 && i < samples; i++)
        output[i] = hard(drive, input[i]);
    return a;
}

static hoofglaze_answer clip_triode(float drive, const float *input, size_t samples, float *output,
                                    size_t places)
{
    hoofglaze_answer a = looked_at(input, samples, places);
    for (size_t i = 0; a.number == 0 && i < samples; i++)
        output[i] = triode(drive, input[i]);
    return a;
}

static hoofglaze_eq_answered eq_block(hoofglaze_eq e, const float *input, size_t samples, float *output,
                                      size_t places)
{
    hoofglaze_answer a = looked_at(input, samples, places);
    for (size_t i = 0; a.number == 0 && i < samples; i++)
        output[i] = eq_step(&e, input[i]);
    return (hoofglaze_eq_answered){e, a};
}

static hoofglaze_tone_answered tone_block(hoofglaze_tone t, const float *input, size_t samples,
                                          float *output, size_t places)
{
    hoofglaze_answer answer = looked_at(input, samples, places);
    struct alphas a = alphas(&t.settings);
    for (size_t i = 0; answer.number == 0 && i < samples; i++)
        output[i] = tone_step(&t.settings, a, &t.registers, input[i]);
    return (hoofglaze_tone_answered){t, answer};
}

static hoofglaze_saturator_answered saturator_block(hoofglaze_saturator s, const float *input,
                                                    size_t samples, float *output, size_t places)
{
    hoofglaze_answer a = looked_at(input, samples, places);
    for (size_t i = 0; a.number == 0 && i < samples; i++)
        output[i] = saturator_step(&s.settings, &s.registers, input[i]);
    return (hoofglaze_saturator_answered){s, a};
}

static hoofglaze_leveller_answered leveller_block(hoofglaze_leveller l, const float *input, size_t samples,
                                                  float *output, size_t places)
{
    hoofglaze_answer a = looked_at(input, samples, places);
    for (size_t i = 0; a.number == 0 && i < samples; i++)
        output[i] = leveller_step(&l.settings, &l.registers, input[i]);
    return (hoofglaze_leveller_answered){l, a};
}

const struct offer OFFER = {
    follower_step, blocker_step, gate_block, gate_record,     clip_hard,
    clip_triode,   eq_block,     tone_block, saturator_block, leveller_block,
};
