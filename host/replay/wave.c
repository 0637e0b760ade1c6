/* Answers calls on the reader of recordings: a file's length and its bytes. Nothing is kept: each stands for
 * itself. */
#include "replay.h"

/* A list with a longer file ends there. */
enum { MOST = 1 << 20 };

int take_counted(uint8_t *to, uint32_t most, uint32_t *count)
{
    uint8_t head[4];
    if (!take(head, sizeof head))
        return 0;
    *count = word(head, 0);
    return *count <= most && take(to, *count);
}

void give_wave(hoofglaze_wave w)
{
    give(&w.number, 4);
    give(&w.rate, 4);
    give(&w.place, 8);
    give(&w.length, 8);
}

int wave_next(void)
{
    static uint8_t file[MOST];
    uint32_t length;
    if (!take_counted(file, MOST, &length))
        return 0;
    give_wave(hoofglaze_wave_read(file, length));
    return 1;
}
