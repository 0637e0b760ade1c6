/* Numbers in a call and in an answer, a block's buffers, and the turn of a stage that has a head of 128
 * bytes. */
#include "replay.h"

const hoofglaze_answer no_call = {.number = UINT32_MAX};

uint32_t word(const uint8_t *head, int at)
{
    uint32_t n;
    memcpy(&n, head + at, sizeof n);
    return n;
}

float number(const uint8_t *head, int at)
{
    return float_of(word(head, at));
}

static size_t at_most(uint32_t n, size_t most)
{
    return n < most ? n : most;
}

size_t buffer_length(const uint8_t *head, int at)
{
    return at_most(word(head, at), LONGEST);
}

size_t name_length(const uint8_t *head, size_t room)
{
    return at_most(word(head, 12), room);
}

void give_floats(const void *from, int count)
{
    for (int i = 0; i < count; i++) {
        float x = settled(number(from, 4 * i));
        give(&x, sizeof x);
    }
}

void give_doubles(const void *from, int count)
{
    for (int i = 0; i < count; i++) {
        double x;
        memcpy(&x, (const uint8_t *)from + 8 * i, sizeof x);
        x = settled64(x);
        give(&x, sizeof x);
    }
}

struct block *take_block(const uint8_t *lengths)
{
    static struct block b;
    b.samples = buffer_length(lengths, 0);
    b.places = buffer_length(lengths, 4);
    for (size_t i = 0; i < b.places; i++)
        b.output[i] = BEFORE;
    return take(b.input, b.samples * sizeof *b.input) ? &b : 0;
}

static void tell(hoofglaze_answer a)
{
    uint64_t place = a.place;
    give(&a.number, 4);
    give(&a.value, 4);
    give(&place, 8);
}

int stage_next(const struct stage *s)
{
    uint8_t head[HEAD];
    struct block *b;
    if (!take(head, sizeof head))
        return 0;
    uint32_t kind = word(head, 0);
    switch (kind) {
    case 6:
        if (!(b = take_block(head + 4)))
            return 0;
        tell(s->block(b));
        give(b->output, b->places * sizeof *b->output);
        return 1;
    case 7:
        if (!s->take())
            return 0;
        tell((hoofglaze_answer){0});
        return 1;
    case 8:
        tell((hoofglaze_answer){0});
        s->tell();
        return 1;
    default:
        tell(s->call(kind, head));
        return 1;
    }
}
