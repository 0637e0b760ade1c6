/* Where the samples of a RIFF WAVE file lie, as document 02 has it (W1), in C. It shares nothing with the
 * library's code. */
#ifndef STEPS_WAVE_H
#define STEPS_WAVE_H

#include <string.h>

#include "hoofglaze.h"

/* So many bytes as a number, the lowest first. */
static inline uint64_t little(const uint8_t *from, int bytes)
{
    uint64_t n = 0;
    while (bytes-- > 0)
        n = n << 8 | from[bytes];
    return n;
}

static inline int is_named(const uint8_t *from, const char *name)
{
    return memcmp(from, name, 4) == 0;
}

/* What a `fmt ` whose bytes are all there is refused by, or 0. */
static inline uint32_t format_fault(const uint8_t *fields, uint64_t size)
{
    if (size != 16)
        return 13;
    uint64_t tag = little(fields, 2), channels = little(fields + 2, 2), rate = little(fields + 4, 4);
    uint64_t byte_rate = little(fields + 8, 4), align = little(fields + 12, 2), bits = little(fields + 14, 2);
    if (tag != 1 || channels != 1 || bits != 16 || align != 2 || byte_rate != 2 * rate)
        return 13;
    return rate < 8000 || rate > 192000 ? 5 : 0;
}

static inline hoofglaze_wave wave_refused(uint32_t number)
{
    return (hoofglaze_wave){.number = number};
}

/* Chunk by chunk up to the end, which lies in the file and behind its first 12 bytes. */
static inline hoofglaze_wave wave_walked(const uint8_t *file, uint64_t end)
{
    uint32_t rate = 0;
    for (uint64_t at = 12; at < end;) {
        const uint8_t *head = file + at;
        if (end - at < 8)
            return wave_refused(11);
        uint64_t size = little(head + 4, 4), pad = size % 2, left = end - at - 8;
        if (size > left)
            return wave_refused(11);
        if (is_named(head, "data"))
            return rate == 0  ? wave_refused(12)
                   : pad != 0 ? wave_refused(14)
                              : (hoofglaze_wave){0, rate, at + 8, size};
        if (size + pad > left)
            return wave_refused(11);
        if (rate == 0 && is_named(head, "fmt ")) {
            uint32_t fault = format_fault(head + 8, size);
            if (fault != 0)
                return wave_refused(fault);
            rate = (uint32_t)little(head + 12, 4);
        }
        at += 8 + size + pad;
    }
    return wave_refused(12);
}

static inline hoofglaze_wave wave_read(const uint8_t *file, size_t length)
{
    if (length < 12 || !is_named(file, "RIFF") || !is_named(file + 8, "WAVE") || little(file + 4, 4) < 4)
        return wave_refused(10);
    uint64_t riff = little(file + 4, 4) + 8;
    return wave_walked(file, riff < length ? riff : length);
}

#endif
