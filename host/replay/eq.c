/* Answers calls on the equaliser, which is kept from call to call: each by its number, a block, and its
 * state taken from bytes and told as bytes. */
#include "replay.h"

enum { BANDS = 16 };

/* At first as a refused making leaves it. */
static hoofglaze_eq kept;

static hoofglaze_answer keep(hoofglaze_eq_answered a)
{
    kept = a.equaliser;
    return a.answer;
}

static hoofglaze_answer call(uint32_t kind, const uint8_t *head)
{
    const uint8_t *name = head + NAME;
    size_t bytes = name_length(head, HEAD - NAME);
    hoofglaze_decibels value = {number(head, 8)};
    hoofglaze_eq_numbers worked;
    memcpy(&worked, head + WORKED, sizeof worked);
    switch (kind) {
    case 1: return keep(hoofglaze_eq_make(number(head, 8)));
    case 2: return keep(hoofglaze_eq_set_band(kept, word(head, 4), value, worked));
    case 3: return keep(hoofglaze_eq_set(kept, name, bytes, value, worked));
    case 4: return hoofglaze_eq_read(kept, name, bytes);
    case 5: return keep(hoofglaze_eq_reset(kept));
    default: return no_call;
    }
}

static hoofglaze_answer block(struct block *b)
{
    return keep(hoofglaze_eq_block(kept, b->input, b->samples, b->output, b->places));
}

/* The numbers stand in a row, with no gap before the wide ones. */
static int take_state(void)
{
    int whole = take(&kept.settings.rate, 4);
    for (int i = 0; i < BANDS; i++) {
        whole = whole && take(&kept.settings.bands[i].value, 4);
        whole = whole && take(&kept.settings.bands[i].numbers, 40);
    }
    return whole && take(&kept.registers, sizeof kept.registers);
}

static void tell_state(void)
{
    give_floats(&kept.settings.rate, 1);
    for (int i = 0; i < BANDS; i++) {
        give_floats(&kept.settings.bands[i].value, 1);
        give_doubles(&kept.settings.bands[i].numbers, 5);
    }
    give_doubles(&kept.registers, 4 * BANDS);
}

int eq_next(void)
{
    static const struct stage stage = {call, block, take_state, tell_state};
    return stage_next(&stage);
}
