/* Answers calls on the clipper. The library clips blocks and shows no table: a sample alone and an entry of
 * the table are answered by blocks of one sample. */
#include "replay.h"
#include "steps/clipper.h"

typedef hoofglaze_answer (*clip)(float drive, const float *input, size_t n, float *output, size_t m);

#define LARGEST 0x1.fffffep127f

/* Whether a block of this sample is done, and what it gives. */
static int is_done(clip kind, float drive, float x, float *y)
{
    return kind(drive, &x, 1, y, 1).number == 0;
}

/* A sample alone may have any bits, and a block refuses some. Clipping looks at the product of drive and
 * sample alone, so another pair with the same product stands for one that a block refuses. No pair that a
 * block takes gives a NaN: the product itself is then the answer. */
static float alone(clip kind, float drive, float x)
{
    float y = BEFORE, product = hoofglaze_fma32(drive, x, -0.0f);
    if (is_done(kind, drive, x, &y) || is_done(kind, product, 1, &y))
        return y;
    if (product != product)
        return product;
    is_done(kind, LARGEST, product < 0 ? -64 : 64, &y);
    return y;
}

/* Not every entry lies at a place that some sample hits, so none is read off. An entry is the Rust's where
 * the library's samples around it have the bits that the written curve gives through the Rust's entries: one
 * step more or less in the entry moves some of them. Elsewhere it is no number. */
static float entry(uint32_t place)
{
    if (place > 255)
        return float_of(QUIET32);
    for (int part = -8; part <= 8; part++) {
        float x = (float)((place + part / 64.0) * 20 / 255 - 10), y = BEFORE;
        if (!is_done(hoofglaze_clip_triode, 1, x, &y) || bytes32(y) != bytes32(triode(1, x)))
            return float_of(QUIET32);
    }
    return float_of(triode_bits[place]);
}

static void tell(hoofglaze_answer a, const float *numbers, size_t count)
{
    uint64_t place = a.place;
    give(&a.number, 4);
    give(&place, 8);
    give(numbers, count * sizeof *numbers);
}

static int block(clip kind, const uint8_t *head)
{
    struct block *b = take_block(head + 8);
    if (!b)
        return 0;
    tell(kind(number(head, 4), b->input, b->samples, b->output, b->places), b->output, b->places);
    return 1;
}

int clipper_next(void)
{
    static const clip kinds[] = {hoofglaze_clip_hard, hoofglaze_clip_triode};
    uint8_t head[16];
    float y;
    if (!take(head, sizeof head))
        return 0;
    uint32_t kind = word(head, 0);
    switch (kind) {
    case 1:
    case 2:
        return block(kinds[kind - 1], head);
    case 3:
    case 4:
        y = alone(kinds[kind - 3], number(head, 4), number(head, 8));
        tell((hoofglaze_answer){0}, &y, 1);
        return 1;
    case 5:
        y = entry(word(head, 8));
        tell((hoofglaze_answer){0}, &y, 1);
        return 1;
    default:
        memset(head, 0xff, sizeof head);
        give(head, 12);
        return 1;
    }
}
