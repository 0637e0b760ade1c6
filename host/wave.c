/* Checks of recordings that are made by hand, with the answers that document 02 gives them: files that are
 * read, each refusal, the order of two, and a file cut at every byte. Each is lent twice, where it begins and
 * where it ends with what can be read, and the steps in C are held to the same answers. */
#include "wave.h"

#include "lent.h"
#include "steps/wave.h"
#include "wave_bytes.h"

enum { LONGEST_WALK = 50 + 8 * 5000 };

/* ---- what is said of it */

void check_wave(const char *call, hoofglaze_wave given, hoofglaze_wave said, uint64_t a, uint64_t b)
{
    check(call, given.number, said.number, a, b, 0);
    check(call, given.rate, said.rate, a, b, 1);
    check(call, given.place, said.place, a, b, 2);
    check(call, given.length, said.length, a, b, 3);
}

void check_readers(const char *file, hoofglaze_wave said, const uint8_t *lent, size_t bytes)
{
    lent_to("hoofglaze_wave_read");
    check_wave(file, hoofglaze_wave_read(lent, bytes), said, bytes, 0);
    lent_to("wave_read, the steps in C,");
    check_wave(file, wave_read(lent, bytes), said, bytes, 1);
    lent_to(0);
}

static void told(const char *file, hoofglaze_wave said, const uint8_t *bytes, size_t length)
{
    check_readers(file, said, lent_at(0, bytes, length), length);
    check_readers(file, said, lent_at_end(bytes, length), length);
}

static void found(const char *file, uint32_t rate, uint64_t place, uint64_t samples, const uint8_t *bytes,
                  size_t length)
{
    told(file, (hoofglaze_wave){0, rate, place, samples}, bytes, length);
}

static void refused(uint32_t number, const char *file, const uint8_t *bytes, size_t length)
{
    told(file, (hoofglaze_wave){number, 0, 0, 0}, bytes, length);
}

/* ---- files that are read */

static void plain_files(void)
{
    found("plain", 48000, 44, 6, FILE_OF(GOOD, SAMPLES));
    found("no sample", 48000, 44, 0, FILE_OF(GOOD, HEAD("data", 0)));
    found("lost power", 48000, 44, 0, BYTES(RIFF(36), GOOD, HEAD("data", 0), SIX));
    found("lowest rate", 8000, 44, 6, FILE_OF(AT(8000), SAMPLES));
    found("highest rate", 192000, 44, 6, FILE_OF(AT(192000), SAMPLES));
    found("RIFF size one more", 48000, 44, 6, BYTES(RIFF(43), GOOD, SAMPLES));
    found("RIFF size at its most", 48000, 44, 6, BYTES(RIFF(0xffffffff), GOOD, SAMPLES));
    found("RIFF size 2^32 - 8", 48000, 44, 6, BYTES(RIFF(0xfffffff8), GOOD, SAMPLES));
    found("bytes behind", 48000, 44, 6, BYTES(RIFF(42), GOOD, SAMPLES, 'd', 'a', 't'));
    found("odd RIFF size", 48000, 44, 6, FILE_OF(GOOD, SAMPLES, 'd', 'a', 't'));
    found("list behind", 48000, 44, 6, FILE_OF(GOOD, SAMPLES, HEAD("LIST", 4), NAMED("INFO")));
    found("second data", 48000, 44, 6, FILE_OF(GOOD, SAMPLES, HEAD("data", 4), 9, 9, 9, 9));
    found("second data past the end", 48000, 44, 6, FILE_OF(GOOD, SAMPLES, HEAD("data", 400)));
}

static void skipped_chunks(void)
{
    found("list before fmt", 48000, 56, 6, FILE_OF(HEAD("LIST", 4), NAMED("INFO"), GOOD, SAMPLES));
    found("list before data", 48000, 56, 6, FILE_OF(GOOD, HEAD("LIST", 4), NAMED("INFO"), SAMPLES));
    found("odd chunk", 48000, 54, 6, FILE_OF(GOOD, HEAD("junk", 1), 7, 0, SAMPLES));
    found("odd chunk, a pad of 255", 48000, 54, 6, FILE_OF(HEAD("junk", 1), 7, 255, GOOD, SAMPLES));
    found("empty chunk", 48000, 52, 6, FILE_OF(GOOD, HEAD("junk", 0), SAMPLES));
    found("data in a list", 48000, 64, 2,
          FILE_OF(GOOD, HEAD("LIST", 12), NAMED("wavl"), HEAD("data", 0), HEAD("data", 2), 1, 2));
    found("other capitals", 48000, 58, 6, FILE_OF(GOOD, HEAD("DATA", 6), SIX, SAMPLES));
    found("second fmt", 48000, 68, 6, FILE_OF(GOOD, AT(8000), SAMPLES));
    found("second fmt at no rate", 48000, 68, 6, FILE_OF(GOOD, AT(7), SAMPLES));
    found("second fmt, another format", 48000, 68, 6, FILE_OF(GOOD, FORMAT(3, 2, 9, 9, 9, 9), SAMPLES));
    found("second fmt of 1 byte", 48000, 54, 6, FILE_OF(GOOD, HEAD("fmt ", 1), 1, 0, SAMPLES));
}

static void many_chunks(void)
{
    static uint8_t file[LONGEST_WALK];
    size_t chunks = (sizeof file - 50) / 8;
    memcpy(file, (const uint8_t[]){RIFF(sizeof file - 8), GOOD}, 36);
    for (size_t i = 0; i < chunks; i++)
        memcpy(file + 36 + 8 * i, (const uint8_t[]){HEAD("junk", 0)}, 8);
    memcpy(file + 36 + 8 * chunks, (const uint8_t[]){SAMPLES}, 14);
    found("many chunks", 48000, 44 + 8 * chunks, 6, file, sizeof file);
}

/* ---- each refusal */

static void no_waves(void)
{
    refused(10, "no byte", (const uint8_t *)"", 0);
    refused(10, "RIFX", BYTES(HEAD("RIFX", 42), NAMED("WAVE"), GOOD, SAMPLES));
    refused(10, "RF64", BYTES(HEAD("RF64", 42), NAMED("WAVE"), GOOD, SAMPLES));
    refused(10, "riff", BYTES(HEAD("riff", 42), NAMED("WAVE"), GOOD, SAMPLES));
    refused(10, "WAVe", BYTES(HEAD("RIFF", 42), NAMED("WAVe"), GOOD, SAMPLES));
    refused(10, "AVI", BYTES(HEAD("RIFF", 42), NAMED("AVI "), GOOD, SAMPLES));
    refused(10, "RIFF size 0", BYTES(RIFF(0), GOOD, SAMPLES));
    refused(10, "RIFF size 3", BYTES(RIFF(3), GOOD, SAMPLES));
}

static void past_the_end(void)
{
    refused(11, "a chunk", FILE_OF(GOOD, HEAD("junk", 15), SAMPLES));
    refused(11, "its pad", FILE_OF(GOOD, HEAD("junk", 3), 1, 2, 3));
    refused(11, "its pad, by the RIFF size", BYTES(RIFF(39), GOOD, HEAD("junk", 3), 1, 2, 3, 0, SAMPLES));
    refused(11, "a size near 2^32", FILE_OF(GOOD, HEAD("junk", 0xfffffff8), SAMPLES));
    refused(11, "the largest size", FILE_OF(GOOD, HEAD("junk", 0xffffffff), SAMPLES));
    refused(11, "a size of 2^31", FILE_OF(GOOD, HEAD("junk", 0x80000000), SAMPLES));
    refused(11, "a second fmt", FILE_OF(GOOD, HEAD("fmt ", 16), SIX));
    refused(11, "data", FILE_OF(GOOD, HEAD("data", 8), SIX));
    refused(11, "data, by the RIFF size", BYTES(RIFF(40), GOOD, SAMPLES));
    refused(11, "data of the largest size", FILE_OF(GOOD, HEAD("data", 0xffffffff), SIX));
    refused(11, "bytes of no chunk", FILE_OF(GOOD, 'd', 'a', 't', 'a', 0, 0, 0));
}

static void no_samples(void)
{
    refused(12, "no chunk", BYTES(RIFF(4)));
    refused(12, "no chunk, by the RIFF size", BYTES(RIFF(4), GOOD, SAMPLES));
    refused(12, "fmt alone", FILE_OF(GOOD));
    refused(12, "data before fmt", FILE_OF(SAMPLES, GOOD));
    refused(12, "data alone", FILE_OF(SAMPLES));
    refused(12, "fmt with a 0", FILE_OF(HEAD("fmt\0", 16), FIELDS(1, 1, 48000, 96000, 2, 16), SAMPLES));
    refused(12, "other capitals", FILE_OF(GOOD, HEAD("Data", 6), SIX));
    refused(12, "a list of data", FILE_OF(GOOD, HEAD("LIST", 18), NAMED("wavl"), SAMPLES));
}

static void other_formats(void)
{
    refused(13, "tag 3", FILE_OF(FORMAT(3, 1, 48000, 96000, 2, 16), SAMPLES));
    refused(13, "tag 257", FILE_OF(FORMAT(257, 1, 48000, 96000, 2, 16), SAMPLES));
    refused(13, "no channel", FILE_OF(FORMAT(1, 0, 48000, 96000, 2, 16), SAMPLES));
    refused(13, "two channels", FILE_OF(FORMAT(1, 2, 48000, 96000, 2, 16), SAMPLES));
    refused(13, "stereo", FILE_OF(FORMAT(1, 2, 48000, 192000, 4, 16), SAMPLES));
    refused(13, "align 1", FILE_OF(FORMAT(1, 1, 48000, 96000, 1, 16), SAMPLES));
    refused(13, "align 258", FILE_OF(FORMAT(1, 1, 48000, 96000, 258, 16), SAMPLES));
    refused(13, "8 bits", FILE_OF(FORMAT(1, 1, 48000, 48000, 1, 8), SAMPLES));
    refused(13, "24 bits", FILE_OF(FORMAT(1, 1, 48000, 96000, 2, 24), SAMPLES));
    refused(13, "byte rate one less", FILE_OF(FORMAT(1, 1, 48000, 95999, 2, 16), SAMPLES));
    refused(13, "byte rate of the rate", FILE_OF(FORMAT(1, 1, 48000, 48000, 2, 16), SAMPLES));
    refused(13, "twice 2^31 is not 0", FILE_OF(FORMAT(1, 1, 0x80000000, 0, 2, 16), SAMPLES));
    refused(13, "twice 2^31 + 24000", FILE_OF(FORMAT(1, 1, 0x80005dc0, 48000, 2, 16), SAMPLES));
    refused(13, "fmt of 18", FILE_OF(FORMAT_OF(18), 0, 0, SAMPLES));
    refused(13, "fmt of 17", FILE_OF(FORMAT_OF(17), 0, 0, SAMPLES));
    refused(13, "fmt of 15", FILE_OF(FORMAT_OF(15), SAMPLES));
    refused(13, "fmt of nothing, at the end", FILE_OF(HEAD("fmt ", 0)));
    refused(13, "fmt of 2, at the end", FILE_OF(HEAD("fmt ", 2), 1, 0));
}

static void other_rates_and_odd_data(void)
{
    refused(5, "rate 0", FILE_OF(AT(0), SAMPLES));
    refused(5, "rate 7,999", FILE_OF(AT(7999), SAMPLES));
    refused(5, "rate 192,001", FILE_OF(AT(192001), SAMPLES));
    refused(5, "rate 2^31 - 1", FILE_OF(AT(0x7fffffff), SAMPLES));
    refused(5, "rate 2^24", FILE_OF(AT(0x1000000), SAMPLES));
    refused(14, "odd data with its pad", FILE_OF(GOOD, HEAD("data", 5), SIX));
    refused(14, "odd data at the end", FILE_OF(GOOD, HEAD("data", 7), SIX, 7));
    refused(14, "odd data up to the RIFF size", BYTES(RIFF(41), GOOD, HEAD("data", 5), SIX));
}

/* ---- two faults: the earlier chunk's, and at one chunk 11, 12, 13, 5, 14 */

static void two_faults(void)
{
    refused(11, "fmt past the end, 13", FILE_OF(HEAD("fmt ", 18), SHORT(3), SIX));
    refused(11, "fmt's pad, 13", FILE_OF(FORMAT_OF(17), 0));
    refused(13, "another format at no rate", FILE_OF(FORMAT(3, 1, 7, 14, 2, 16), SAMPLES));
    refused(13, "byte rate at no rate", FILE_OF(FORMAT(1, 1, 7, 15, 2, 16), SAMPLES));
    refused(11, "data past the end, no fmt", FILE_OF(HEAD("data", 8), SIX));
    refused(11, "odd data past the end", FILE_OF(GOOD, HEAD("data", 7), SIX));
    refused(12, "odd data, no fmt", FILE_OF(HEAD("data", 5), SIX));
    refused(13, "another format, good fmt", FILE_OF(FORMAT(3, 1, 48000, 96000, 2, 16), GOOD, SAMPLES));
    refused(5, "no rate, good fmt", FILE_OF(AT(7), GOOD, SAMPLES));
    refused(5, "no rate, a chunk past the end", FILE_OF(AT(7), HEAD("junk", 9)));
    refused(13, "another format, no data", FILE_OF(FORMAT(1, 1, 48000, 96000, 2, 8)));
    refused(5, "no rate, odd data", FILE_OF(AT(192001), HEAD("data", 5), SIX));
    refused(11, "a chunk past the end, odd data", FILE_OF(GOOD, HEAD("junk", 99), HEAD("data", 5), SIX));
    refused(12, "data before another format", FILE_OF(SAMPLES, FORMAT(3, 1, 48000, 96000, 2, 16)));
}

/* ---- a plain file cut at every byte, by its length and by its RIFF size */

static uint32_t number_at(size_t end)
{
    if (end < 12)
        return 10;
    if (end == 12 || end == 36)
        return 12;
    return end < 50 ? 11 : 0;
}

static void cut_at(size_t end, const uint8_t *bytes, size_t length)
{
    if (number_at(end) == 0)
        found("cut behind its samples", 48000, 44, 6, bytes, length);
    else
        refused(number_at(end), "cut", bytes, length);
}

static void cut_files(void)
{
    for (size_t end = 0; end <= 50; end++)
        cut_at(end, (const uint8_t[]){RIFF(42), GOOD, SAMPLES}, end);
    for (size_t end = 8; end <= 60; end++)
        cut_at(end, BYTES(RIFF(end - 8), GOOD, SAMPLES));
}

/* ---- all */

void wave_checks(void)
{
    group("recordings: files made by hand, at both ends of what can be read");
    check("memory to lend", can_lend() >= LEAST_LENT, 1, can_lend(), 0, 0);
    if (can_lend() < LEAST_LENT)
        return;
    plain_files();
    skipped_chunks();
    many_chunks();
    no_waves();
    past_the_end();
    no_samples();
    other_formats();
    other_rates_and_odd_data();
    two_faults();
    cut_files();
    large_checks();
    mutated_checks();
}
