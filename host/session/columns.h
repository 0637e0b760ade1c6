/* A recording in columns, for a bar or a picture: as many as are wanted, but no more than it has samples. */
#ifndef SESSION_COLUMNS_H
#define SESSION_COLUMNS_H

#include <stdint.h>

static inline uint64_t columns_of(uint64_t samples, uint64_t wanted)
{
    return samples < wanted ? samples : wanted;
}

/* A column's first sample; that of the column behind the last is the number of samples. */
static inline uint64_t column_begins(uint64_t samples, uint64_t columns, uint64_t column)
{
    return column * samples / columns;
}

static inline uint64_t column_at(uint64_t samples, uint64_t columns, uint64_t sample)
{
    uint64_t column = sample * columns / samples;
    return column_begins(samples, columns, column + 1) <= sample ? column + 1 : column;
}

#endif
