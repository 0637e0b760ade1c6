/* Answers calls on the multiband saturator, which is kept from call to call: each by its number, a block,
 * and its state taken from bytes and told as bytes. */
#include "replay.h"

/* At first as a refused making leaves it. */
static hoofglaze_saturator kept;

static hoofglaze_answer keep(hoofglaze_saturator_answered a)
{
    kept = a.saturator;
    return a.answer;
}

static hoofglaze_saturator_crossover crossover(const uint8_t *from)
{
    hoofglaze_saturator_crossover c;
    memcpy(&c, from, sizeof c);
    return c;
}

static hoofglaze_answer make(const uint8_t *head)
{
    const uint8_t *low = head + WORKED, *high = low + sizeof(hoofglaze_saturator_crossover);
    const uint8_t *c = high + sizeof(hoofglaze_saturator_crossover);
    return keep(hoofglaze_saturator_make(number(head, 8), crossover(low), crossover(high), number(c, 0),
                                         number(c, 4), number(c, 8)));
}

static hoofglaze_answer set(uint32_t which, float value, hoofglaze_saturator_crossover worked)
{
    switch (which) {
    case 1: return keep(hoofglaze_saturator_set_mid_drive(kept, value));
    case 2: return keep(hoofglaze_saturator_set_high_drive(kept, value));
    case 3: return keep(hoofglaze_saturator_set_low_level(kept, value));
    case 4: return keep(hoofglaze_saturator_set_mid_level(kept, value));
    case 5: return keep(hoofglaze_saturator_set_high_level(kept, value));
    case 6: return keep(hoofglaze_saturator_set_low_freq(kept, value, worked));
    case 7: return keep(hoofglaze_saturator_set_high_freq(kept, value, worked));
    default: return keep(hoofglaze_saturator_set_low_drive(kept, value));
    }
}

static hoofglaze_answer call(uint32_t kind, const uint8_t *head)
{
    const uint8_t *name = head + NAME;
    size_t bytes = name_length(head, HEAD - NAME);
    float value = number(head, 8);
    hoofglaze_saturator_crossover worked = crossover(head + WORKED);
    switch (kind) {
    case 1: return make(head);
    case 2: return set(word(head, 4), value, worked);
    case 3: return keep(hoofglaze_saturator_set(kept, name, bytes, value, worked));
    case 4: return hoofglaze_saturator_read(kept, name, bytes);
    case 5: return keep(hoofglaze_saturator_reset(kept));
    default: return no_call;
    }
}

static hoofglaze_answer block(struct block *b)
{
    return keep(hoofglaze_saturator_block(kept, b->input, b->samples, b->output, b->places));
}

static int take_state(void)
{
    return take(&kept, sizeof kept);
}

static void tell_state(void)
{
    give_floats(&kept, sizeof kept / 4);
}

int saturator_next(void)
{
    static const struct stage stage = {call, block, take_state, tell_state};
    return stage_next(&stage);
}
