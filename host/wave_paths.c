/* The calls on recordings, whose paths must not hang on memory that nothing wrote. */
#include "paths.h"
#include "stage.h"
#include "steps/wave.h"
#include "wave_write.h"

/* What the calls give; nothing looks at it. */
static hoofglaze_wave waved;
static hoofglaze_written written;

static int begins_as_wave(const uint8_t *file, size_t length)
{
    return length >= 12 && is_named(file, "RIFF") && is_named(file + 8, "WAVE");
}

/* Files of each answer; to refuse another name takes too few steps to tell. */
static void recordings_read(void)
{
    static const uint32_t numbers[] = {0, 5, 10, 11, 12, 13, 14};
    static uint8_t file[LONGEST_FILE];
    for (int i = 0; i < 3 * COUNT(numbers); i++) {
        size_t length;
        do
            length = draw_file(file);
        while (!begins_as_wave(file, length) || wave_read(file, length).number != numbers[i / 3]);
        SAME(waved = hoofglaze_wave_read(file, length));
    }
}

/* Samples of each answer; to refuse them takes too few steps to tell, so a reading follows. */
static void recordings_written(void)
{
    static const struct {
        uint32_t rate;
        size_t bytes, room;
    } calls[] = {{48000, 0, 44},  {48000, 20, 64},                {7999, 20, 64},
                 {48000, 19, 64}, {48000, MOST_RECORDED + 2, 64}, {48000, 20, 63}};
    static uint8_t recorded[MOST_RECORDED + 2], file[64];
    for (int i = 0; i < COUNT(calls); i++) {
        uint32_t rate = calls[i].rate;
        size_t bytes = calls[i].bytes, room = calls[i].room;
        SAME((written = hoofglaze_wave_write(rate, recorded, bytes, file, room),
              waved = hoofglaze_wave_read(file, 44)));
    }
}

/* Heads of each answer, likewise. */
static void heads(void)
{
    static const struct {
        uint32_t rate;
        uint64_t bytes;
        size_t room;
    } calls[] = {{48000, 0, 44},  {48000, 4294967258, 64}, {7999, 20, 64},
                 {48000, 19, 64}, {48000, 4294967260, 64}, {48000, 20, 43}};
    static uint8_t file[64];
    for (int i = 0; i < COUNT(calls); i++) {
        uint32_t rate = calls[i].rate;
        uint64_t bytes = calls[i].bytes;
        size_t room = calls[i].room;
        SAME((written = hoofglaze_wave_head(rate, bytes, file, room), waved = hoofglaze_wave_read(file, 44)));
    }
}

void wave_paths(void)
{
    recordings_read();
    recordings_written();
    heads();
}
