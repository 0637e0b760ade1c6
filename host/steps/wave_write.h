/* Samples of one channel and 16 bits as a RIFF WAVE file, as document 02 has it (W8), and its head alone, in
 * C. It shares nothing with the library's code. */
#ifndef STEPS_WAVE_WRITE_H
#define STEPS_WAVE_WRITE_H

#include <string.h>

#include "hoofglaze.h"

#define HEAD_BYTES ((size_t)44)
#define MOST_SAMPLES ((size_t)1048576)
#define MOST_HEADED ((uint64_t)UINT32_MAX - 37)

static inline uint8_t *put_name(uint8_t *to, const char *name)
{
    memcpy(to, name, 4);
    return to + 4;
}

/* A number in so many bytes, the lowest first. */
static inline uint8_t *put_little(uint8_t *to, uint64_t n, int bytes)
{
    for (; bytes > 0; bytes--, n >>= 8)
        *to++ = (uint8_t)n;
    return to;
}

static inline uint8_t *put_format(uint8_t *to, uint32_t rate)
{
    to = put_little(put_name(to, "fmt "), 16, 4);
    to = put_little(put_little(to, 1, 2), 1, 2);
    to = put_little(put_little(to, rate, 4), 2 * (uint64_t)rate, 4);
    return put_little(put_little(to, 2, 2), 16, 2);
}

static inline uint8_t *put_head(uint8_t *to, uint32_t rate, uint64_t bytes)
{
    to = put_little(put_name(to, "RIFF"), 36 + bytes, 4);
    to = put_format(put_name(to, "WAVE"), rate);
    return put_little(put_name(to, "data"), bytes, 4);
}

/* What samples are refused by, or 0, whatever the room. */
static inline uint32_t samples_fault(uint32_t rate, uint64_t bytes, uint64_t most)
{
    if (rate < 8000 || rate > 192000)
        return 5;
    if (bytes % 2 != 0)
        return 14;
    return bytes > most ? 17 : 0;
}

static inline uint32_t write_fault(uint32_t rate, size_t bytes, size_t room)
{
    uint32_t fault = samples_fault(rate, bytes, MOST_SAMPLES);
    return fault == 0 && room < HEAD_BYTES + bytes ? 15 : fault;
}

static inline hoofglaze_written wave_write(uint32_t rate, const uint8_t *samples, size_t bytes,
                                           uint8_t *output, size_t room)
{
    uint32_t fault = write_fault(rate, bytes, room);
    if (fault != 0)
        return (hoofglaze_written){fault, 0};
    uint8_t *to = put_head(output, rate, bytes);
    if (bytes > 0)
        memcpy(to, samples, bytes);
    return (hoofglaze_written){0, (uint32_t)(HEAD_BYTES + bytes)};
}

/* The head alone, of samples that may be written elsewhere. */
static inline hoofglaze_written wave_head(uint32_t rate, uint64_t bytes, uint8_t *output, size_t room)
{
    uint32_t fault = samples_fault(rate, bytes, MOST_HEADED);
    if (fault == 0 && room < HEAD_BYTES)
        fault = 15;
    if (fault != 0)
        return (hoofglaze_written){fault, 0};
    put_head(output, rate, bytes);
    return (hoofglaze_written){0, HEAD_BYTES};
}

#endif
