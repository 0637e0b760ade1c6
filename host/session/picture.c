/* What the picture shows, gathered column by column while the recording is heard. */
#include "picture.h"

#include "columns.h"
#include "draw.h"

static struct picture picture;

/* The column that is being heard, and the first sample behind it. */
static uint64_t column, behind;

uint64_t picture_block(uint64_t samples)
{
    uint64_t block = samples / (16 * PICTURE_COLUMNS);
    return block < 1 ? 1 : block > BLOCK ? BLOCK : block;
}

void picture_begins(const struct session *s)
{
    picture.samples = s->recording.samples;
    picture.columns = columns_of(picture.samples, PICTURE_COLUMNS);
    for (uint64_t i = 0; i < picture.columns; i++)
        picture.column[i] = (struct column){.input = {2, -2}, .gated = {2, -2}};
    behind = picture.columns ? column_begins(picture.samples, picture.columns, 1) : 0;
}

static void reaches(struct reach *r, float x)
{
    r->low = x < r->low ? x : r->low;
    r->high = x > r->high ? x : r->high;
}

void picture_hears(uint64_t at, size_t samples, const float *input, const float *gated, float level)
{
    for (size_t i = 0; i < samples; i++) {
        if (at + i == behind)
            behind = column_begins(picture.samples, picture.columns, ++column + 1);
        reaches(&picture.column[column].input, input[i]);
        reaches(&picture.column[column].gated, gated[i]);
    }
    if (level > picture.column[column].level)
        picture.column[column].level = level;
}

/* Spans with less than a column between them are shown as one: there are never more of them than columns. */
void picture_span(const struct span *p)
{
    struct shade *next = &picture.shades[picture.count];
    if (picture.count > 0 && (p->from - next[-1].span.to) * picture.columns < picture.samples) {
        next[-1].span.to = p->to;
        next[-1].spans++;
        return;
    }
    *next = (struct shade){*p, 1};
    picture.count++;
}

void picture_ends(const struct session *s)
{
    draw(s, &picture);
}
