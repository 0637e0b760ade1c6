/* Signed 16-bit samples, the lower byte first: read as a float and written as one, by the rules of
 * crates/pcm. */
#ifndef SESSION_PCM_H
#define SESSION_PCM_H

#include <stdint.h>

/* What a sample is divided by when it is read. */
#define SCALE_IN 32768.0f

/* What a number is multiplied by when it is written; the size of the lowest sample that is written, and of
 * the highest. */
#define SCALE_OUT 32768.0f
enum { LOWEST = 32768, HIGHEST = 32767 };

static inline float heard(uint8_t lower, uint8_t upper)
{
    return (float)(int16_t)(lower | upper << 8) / SCALE_IN;
}

/* A size to the nearest whole number, ties to even, held to most; NaN as 0. */
static inline int whole_size(int most, float size)
{
    if (!(size < (float)most))
        return size >= (float)most ? most : 0;
    int n = (int)size;
    float tie = (float)n + 0.5f;
    return size < tie ? n : size > tie ? n + 1 : n + n % 2;
}

static inline int sample_of(float x)
{
    float y = x * SCALE_OUT;
    return y < 0 ? -whole_size(LOWEST, -y) : whole_size(HIGHEST, y);
}

#endif
