/* Answers calls on the leveller, which is kept from call to call: each by its number, a block, and its state
 * taken from bytes and told as bytes. */
#include "replay.h"

/* At first as a refused making leaves it. */
static hoofglaze_leveller kept;

static hoofglaze_answer keep(hoofglaze_leveller_answered a)
{
    kept = a.leveller;
    return a.answer;
}

static hoofglaze_answer set(uint32_t which, float value, float worked)
{
    hoofglaze_decibels decibels = {value};
    switch (which) {
    case 1: return keep(hoofglaze_leveller_set_ratio(kept, value));
    case 2: return keep(hoofglaze_leveller_set_attack(kept, value, worked));
    case 3: return keep(hoofglaze_leveller_set_release(kept, value, worked));
    case 4: return keep(hoofglaze_leveller_set_makeup(kept, (hoofglaze_factor){value}));
    default: return keep(hoofglaze_leveller_set_threshold(kept, decibels, (hoofglaze_factor){worked}));
    }
}

static hoofglaze_answer call(uint32_t kind, const uint8_t *head)
{
    const uint8_t *name = head + NAME;
    size_t bytes = name_length(head, HEAD - NAME);
    float value = number(head, 8), worked = number(head, WORKED);
    switch (kind) {
    case 1: return keep(hoofglaze_leveller_make(value, worked, number(head, WORKED + 4)));
    case 2: return set(word(head, 4), value, worked);
    case 3: return keep(hoofglaze_leveller_set(kept, name, bytes, value, worked));
    case 4: return hoofglaze_leveller_read(kept, name, bytes);
    case 5: return keep(hoofglaze_leveller_reset(kept));
    default: return no_call;
    }
}

static hoofglaze_answer block(struct block *b)
{
    return keep(hoofglaze_leveller_block(kept, b->input, b->samples, b->output, b->places));
}

static int take_state(void)
{
    return take(&kept, sizeof kept);
}

static void tell_state(void)
{
    give_floats(&kept, sizeof kept / 4);
}

int leveller_next(void)
{
    static const struct stage stage = {call, block, take_state, tell_state};
    return stage_next(&stage);
}
