/* The reader's refusals in words, each with what to do. */
#include "refusals.h"

#include <string.h>

#include "words.h"

/* Above 48,000 Hz ffmpeg would mark it as extensible, which is refused by 13 again. */
#define FFMPEG "    ffmpeg -i FILE -ac 1 -ar 48000 -c:a pcm_s16le OUT.wav"
#define SOX "    sox FILE -b 16 -c 1 -e signed-integer OUT.wav"

const char *const saving = FFMPEG;

/* Two that the reader has no number of their own for, as it answers 10. */
enum { NO_BYTE = 100, NO_SIZE };

static const struct refusal {
    uint32_t number;
    const char *words, *advice;
} refusals[] = {
    {10, "no WAVE recording: it doesn't begin as one does",
     "To convert sound of another kind:\n" FFMPEG "\n"
     "Where it is samples without a header, 48,000 a second: ./hoofglaze --report - <FILE"},
    {11, "cut off or damaged: it ends before what it says it holds",
     "Copy it from the recorder again; or save what is there:\n" FFMPEG},
    {12, "no sound in it: a WAVE file, in which no samples are to be found",
     "Copy it from the recorder again, or export it there again, as WAVE of 16 bits, one channel."},
    {13, "not 16 bits of one channel, said the plain way",
     "It may be stereo, of 8 or 24 bits, float, compressed, or marked as extensible. To convert it:\n" FFMPEG
     "\n" SOX},
    {5, "its sample rate isn't from 8,000 to 192,000 Hz",
     "To convert it:\n" FFMPEG "\n    sox FILE -b 16 -c 1 -e signed-integer -r 48000 OUT.wav"},
    {14, "it ends in half a sample: an odd number of bytes of samples",
     "Copy it from the recorder again; or leave the half sample out:\n" FFMPEG},
    {NO_BYTE, "an empty file, and no WAVE recording", "Copy it from the recorder again."},
    {NO_SIZE, "no whole WAVE recording: it begins as one, and says that it is empty",
     "The recorder may have lost power. To save what is there:\n" FFMPEG},
};

/* Which words tell more than that it is no WAVE recording. */
static uint32_t told(const struct recording *r, uint32_t number)
{
    if (number != 10)
        return number;
    if (r->size == 0)
        return NO_BYTE;
    return r->size >= 12 && memcmp(r->bytes, "RIFF", 4) == 0 && memcmp(r->bytes + 8, "WAVE", 4) == 0 ? NO_SIZE
                                                                                                     : 10;
}

void refused(const struct recording *r, uint32_t number)
{
    for (size_t i = 0; i < sizeof refusals / sizeof *refusals; i++)
        if (refusals[i].number == told(r, number))
            stop(FAILED, "%s: %s.\n%s", shown(r->name), refusals[i].words, refusals[i].advice);
    stop(FAILED, "%s: the library's reader refuses it by %u", shown(r->name), (unsigned)number);
}
