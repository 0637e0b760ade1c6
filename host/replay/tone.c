/* Answers calls on the tone stack, which is kept from call to call: each by its number, a block, and its
 * state taken from bytes and told as bytes. */
#include "replay.h"

/* At first as a refused making leaves it. */
static hoofglaze_tone kept;

static hoofglaze_answer keep(hoofglaze_tone_answered a)
{
    kept = a.tone;
    return a.answer;
}

static hoofglaze_answer make(uint32_t model, float rate)
{
    switch (model) {
    case 0: return keep(hoofglaze_tone_make_modern(rate));
    case 1: return keep(hoofglaze_tone_make_british(rate));
    case 2: return keep(hoofglaze_tone_make_american(rate));
    default: return keep(hoofglaze_tone_make_flat(rate));
    }
}

static hoofglaze_answer set(uint32_t which, float value, float worked)
{
    switch (which) {
    case 1: return keep(hoofglaze_tone_set_mid(kept, value));
    case 2: return keep(hoofglaze_tone_set_treble(kept, value));
    case 3: return keep(hoofglaze_tone_set_presence(kept, value, (hoofglaze_factor){worked}));
    default: return keep(hoofglaze_tone_set_bass(kept, value));
    }
}

static hoofglaze_answer call(uint32_t kind, const uint8_t *head)
{
    const uint8_t *name = head + NAME;
    size_t bytes = name_length(head, HEAD - NAME);
    float value = number(head, 8), worked = number(head, WORKED);
    switch (kind) {
    case 1: return make(word(head, 4), value);
    case 2: return set(word(head, 4), value, worked);
    case 3: return keep(hoofglaze_tone_set(kept, name, bytes, value, worked));
    case 4: return hoofglaze_tone_read(kept, name, bytes);
    case 5: return keep(hoofglaze_tone_reset(kept));
    default: return no_call;
    }
}

static hoofglaze_answer block(struct block *b)
{
    return keep(hoofglaze_tone_block(kept, b->input, b->samples, b->output, b->places));
}

static int take_state(void)
{
    return take(&kept, sizeof kept);
}

static void tell_state(void)
{
    give_floats(&kept.settings.rate, 1);
    give(&kept.settings.model, 4);
    give_floats(&kept.settings.bass, 5);
    give_floats(&kept.registers, 4);
}

int tone_next(void)
{
    static const struct stage stage = {call, block, take_state, tell_state};
    return stage_next(&stage);
}
