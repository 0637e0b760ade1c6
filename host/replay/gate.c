/* Answers calls on the noise gate, which is kept from call to call, by value and in place. The bytes of its
 * calls and answers are its own. */
#include "replay.h"

enum { GATE_HEAD = 64, GATE_NAME = 16 };

/* At first as a refused making leaves it. */
static hoofglaze_gate kept;

static hoofglaze_answer keep(hoofglaze_gate_answered a)
{
    kept = a.gate;
    return a.answer;
}

static hoofglaze_answer set(const uint8_t *head)
{
    float value = number(head, 8), worked = number(head, 12);
    hoofglaze_decibels decibels = {value};
    switch (word(head, 4)) {
    case 1: return keep(hoofglaze_gate_set_ratio(kept, value));
    case 2: return keep(hoofglaze_gate_set_attack(kept, value, worked));
    case 3: return keep(hoofglaze_gate_set_release(kept, value, worked));
    case 4: return keep(hoofglaze_gate_set_hold(kept, value));
    default: return keep(hoofglaze_gate_set_threshold(kept, decibels, (hoofglaze_factor){worked}));
    }
}

/* A state that a version before 9 kept. */
static hoofglaze_answer load(const uint8_t *numbers)
{
    hoofglaze_gate_before before;
    memcpy(&before.settings, numbers, sizeof before.settings);
    memcpy(&before.registers, numbers + sizeof before.settings, sizeof before.registers);
    kept = hoofglaze_gate_load(before);
    return (hoofglaze_answer){0};
}

static hoofglaze_answer call(uint32_t kind, const uint8_t *head)
{
    const uint8_t *name = head + GATE_NAME;
    size_t bytes = name_length(head, GATE_HEAD - GATE_NAME);
    float first = number(head, 4), second = number(head, 8);
    switch (kind) {
    case 1: return keep(hoofglaze_gate_make(first, second, number(head, 12)));
    case 2: return set(head);
    case 3: return keep(hoofglaze_gate_set(kept, name, bytes, first, second));
    case 4: return hoofglaze_gate_read(kept, name, bytes);
    case 5: return keep(hoofglaze_gate_reset(kept));
    case 7: return load(head + 4);
    case 8: return hoofglaze_gate_set_in_place(&kept, name, bytes, first, second);
    case 9: return hoofglaze_gate_reset_in_place(&kept);
    default: return no_call;
    }
}

static void tell(hoofglaze_answer a)
{
    uint64_t place = a.place, count = a.count;
    give(&a.number, 4);
    give(&a.value, 4);
    give(&place, 8);
    give(&count, 8);
    give(&a.word, 4);
    give(&a.samples, 8);
    give(&a.quiet, 4);
    give_floats(&kept.settings, sizeof kept.settings / 4);
    give_floats(&kept.registers, 2);
    give(&kept.registers.counter, 8);
    give(&kept.registers.quiet, 4);
}

/* A state of today: the head has no room for its quiet count, which stands behind it. */
static int hand_back(const uint8_t *numbers)
{
    uint32_t quiet;
    if (!take(&quiet, sizeof quiet))
        return 0;
    memcpy(&kept.settings, numbers, sizeof kept.settings);
    memcpy(&kept.registers, numbers + sizeof kept.settings, offsetof(hoofglaze_gate_registers, quiet));
    kept.registers.quiet = quiet;
    tell((hoofglaze_answer){0});
    return 1;
}

static int block(uint32_t kind, const uint8_t *head)
{
    struct block *b = take_block(head + 4);
    if (!b)
        return 0;
    tell(kind == 6 ? keep(hoofglaze_gate_block(kept, b->input, b->samples, b->output, b->places))
                   : hoofglaze_gate_block_in_place(&kept, b->input, b->samples, b->output, b->places));
    give(b->output, b->places * sizeof *b->output);
    return 1;
}

static int record(const uint8_t *head)
{
    static uint8_t aims[LONGEST];
    size_t bytes = buffer_length(head, 12);
    struct block *b = take_block(head + 4);
    if (!b)
        return 0;
    memset(aims, AIM_BEFORE, bytes);
    tell(keep(hoofglaze_gate_record(kept, b->input, b->samples, b->output, b->places, aims, bytes)));
    give(b->output, b->places * sizeof *b->output);
    give(aims, bytes);
    return 1;
}

int gate_next(void)
{
    uint8_t head[GATE_HEAD];
    if (!take(head, sizeof head))
        return 0;
    uint32_t kind = word(head, 0);
    if (kind == 6 || kind == 10)
        return block(kind, head);
    if (kind == 11)
        return record(head);
    if (kind == 13)
        return hand_back(head + 4);
    tell(call(kind, head));
    return 1;
}
