/* Answers calls on the writer of recordings: a rate, how many bytes of samples and how much room, and two
 * tiles that fill them. Nothing is kept: each stands for itself. */
#include "replay.h"

/* A list with more ends there. */
enum { MOST = 1 << 21, MOST_TILE = 1 << 16 };

/* How much of the output stands in an answer; all of it is in the digest. */
enum { SHOWN = 256 };

/* What is filled is copied behind itself, so that a megabyte takes few steps. */
int take_filled(uint8_t *to, size_t bytes)
{
    static uint8_t tile[MOST_TILE];
    uint32_t count;
    if (!take_counted(tile, MOST_TILE, &count))
        return 0;
    if (count == 0)
        tile[count++] = 0;
    memcpy(to, tile, count < bytes ? count : bytes);
    for (size_t filled = count, more; filled < bytes; filled += more) {
        more = filled < bytes - filled ? filled : bytes - filled;
        memcpy(to + filled, to, more);
    }
    return 1;
}

/* FNV-1a of 64 bits. */
static uint64_t digest(const uint8_t *from, size_t bytes)
{
    uint64_t d = 0xcbf29ce484222325;
    for (size_t i = 0; i < bytes; i++)
        d = (d ^ from[i]) * 0x100000001b3;
    return d;
}

int wave_write_next(void)
{
    static uint8_t samples[MOST], output[MOST];
    uint8_t head[12];
    if (!take(head, sizeof head))
        return 0;
    uint32_t rate = word(head, 0), bytes = word(head, 4), room = word(head, 8);
    if (bytes > MOST || room > MOST || !take_filled(samples, bytes) || !take_filled(output, room))
        return 0;
    hoofglaze_written w = hoofglaze_wave_write(rate, samples, bytes, output, room);
    give(&w.number, 4);
    give(&w.length, 4);
    give(output, room < SHOWN ? room : SHOWN);
    uint64_t all = digest(output, room);
    give(&all, 8);
    give_wave(hoofglaze_wave_read(output, room));
    return 1;
}
