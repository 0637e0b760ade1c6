/* The gated sound as a WAVE file: by the library's writer where it takes so much, else its head, and the
 * samples behind it as they come. */
#include "sound.h"

#include "output.h"
#include "pcm.h"
#include "words.h"

/* The most that hoofglaze_wave_write takes, and the head that it writes. */
enum { MOST_BYTES = 1 << 20, HEAD = 44 };

static uint8_t kept[MOST_BYTES], file[HEAD + MOST_BYTES];
static size_t bytes_kept;
static int is_kept;

static void put(struct session *s, const uint8_t *bytes, size_t length)
{
    if (fwrite(bytes, 1, length, s->out) != length)
        stop_failed(s->asked->out);
}

static void put_written(struct session *s, hoofglaze_written written, const uint8_t *bytes)
{
    if (written.number)
        stop(FAILED, "%s: the library's writer refuses it by %u", shown(s->asked->out),
             (unsigned)written.number);
    put(s, bytes, written.length);
}

void sound_begins(struct session *s)
{
    uint64_t bytes = 2 * s->recording.samples;
    is_kept = bytes <= MOST_BYTES;
    if (!is_kept)
        put_written(s, hoofglaze_wave_head(s->recording.rate, bytes, file, HEAD), file);
}

static void equalise(struct session *s, const float *gated, float *to, size_t samples)
{
    hoofglaze_eq_answered a = hoofglaze_eq_block(s->equaliser, gated, samples, to, samples);
    if (a.answer.number)
        stop(FAILED, "the library's equaliser refuses a block by %u", (unsigned)a.answer.number);
    s->equaliser = a.equaliser;
}

void sound(struct session *s, const float *gated, size_t samples)
{
    static float equalised[BLOCK];
    static uint8_t block[2 * BLOCK];
    uint8_t *to = is_kept ? kept + bytes_kept : block;
    if (s->asked->equaliser.asked) {
        equalise(s, gated, equalised, samples);
        gated = equalised;
    }
    for (size_t i = 0; i < samples; i++) {
        unsigned word = (unsigned)sample_of(gated[i]);
        to[2 * i] = (uint8_t)word;
        to[2 * i + 1] = (uint8_t)(word >> 8);
    }
    if (is_kept)
        bytes_kept += 2 * samples;
    else
        put(s, block, 2 * samples);
}

void sound_ends(struct session *s)
{
    if (is_kept)
        put_written(s, hoofglaze_wave_write(s->recording.rate, kept, bytes_kept, file, sizeof file), file);
}
