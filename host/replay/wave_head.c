/* Answers calls for a recording's head: a rate, for how many bytes of samples, how much room, and a tile that
 * fills it. Nothing is kept: each stands for itself. */
#include "replay.h"

/* A list with more room ends there. */
enum { MOST = 1 << 16 };

int wave_head_next(void)
{
    static uint8_t output[MOST];
    uint8_t head[16];
    if (!take(head, sizeof head))
        return 0;
    uint64_t bytes = word(head, 4) | (uint64_t)word(head, 8) << 32;
    uint32_t room = word(head, 12);
    if (room > MOST || !take_filled(output, room))
        return 0;
    hoofglaze_written w = hoofglaze_wave_head(word(head, 0), bytes, output, room);
    give(&w.number, 4);
    give(&w.length, 4);
    give(output, room);
    return 1;
}
