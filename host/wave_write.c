/* Checks of recordings that are written: whole files by hand, each refusal, the order of those that meet, and
 * limits. Before the samples, which can only be read, and before the output nothing can be touched, then
 * nothing behind them; on the output's other side every byte must stay. The steps in C are held to the same. */
#include "wave_write.h"

#include "lent.h"
#include "steps/wave_write.h"
#include "wave_bytes.h"

enum { LONGEST_SAMPLES = MOST_RECORDED + 4, LONGEST_ROOM = MOST_RECORDED + 200, BESIDE = 256 };

const uint32_t rates_written[RATES_WRITTEN] = {8000,  8001,  11025, 16000, 22050,  32000,  32767,  32768,
                                               44100, 48000, 65535, 65536, 131071, 131072, 191999, 192000};
const uint32_t rates_refused[RATES_REFUSED] = {
    0,         1,         255,        7999,       192001,     196608,
    0x1000000, 0x1001f40, 0x7fffffff, 0x80000000, 0x80005dc0, 0xffffffff};

static uint8_t any[LONGEST_SAMPLES];
static uint8_t left[LONGEST_ROOM + BESIDE];

/* ---- what is said of it */

size_t same_bytes(const uint8_t *given, const uint8_t *said, size_t bytes)
{
    size_t same = 0;
    if (bytes == 0 || memcmp(given, said, bytes) == 0)
        return bytes;
    while (given[same] == said[same])
        same++;
    return same;
}

void check_written(const char *call, hoofglaze_written given, hoofglaze_written said, uint64_t a, uint64_t b)
{
    check(call, given.number, said.number, a, b, 0);
    check(call, given.length, said.length, a, b, 1);
}

struct writing {
    const char *name;
    uint32_t rate;
    size_t bytes, room;
    hoofglaze_written said;
    const uint8_t *file; /* what is written, if it is */
};

/* What the output and the memory beside it hold before, other bytes at each end; and in `left` what they
 * must hold afterwards. */
static void prepare(const struct writing *w, uint8_t *from, size_t before, uint8_t turned)
{
    size_t all = w->room + BESIDE;
    for (size_t i = 0; i < all; i++)
        left[i] = (uint8_t)(i * 167 + (i >> 8) * 59 + 90) ^ turned;
    memcpy(from, left, all);
    memcpy(left + before, w->file, w->said.length);
}

/* The output ends with the room, or begins with it. */
static void check_writer(const char *call, writer write, const struct writing *w, const uint8_t *samples,
                         int at_end)
{
    size_t all = w->room + BESIDE, before = at_end ? BESIDE : 0;
    uint8_t *from = room_at(at_end ? can_lend() - all : 0);
    prepare(w, from, before, at_end ? 0xff : 0);
    lent_to(call);
    hoofglaze_written given = write(w->rate, samples, w->bytes, from + before, w->room);
    lent_to(0);
    check_written(w->name, given, w->said, w->bytes, w->room);
    check(w->name, same_bytes(from, left, all), all, w->bytes, w->room, 2 + at_end);
}

static void told(const struct writing *w, const uint8_t *samples)
{
    const uint8_t *first = lent_at(0, samples, w->bytes);
    check_writer("hoofglaze_wave_write", hoofglaze_wave_write, w, first, 0);
    check_writer("wave_write, the steps in C,", wave_write, w, first, 0);
    const uint8_t *last = lent_at_end(samples, w->bytes);
    check_writer("hoofglaze_wave_write", hoofglaze_wave_write, w, last, 1);
    check_writer("wave_write, the steps in C,", wave_write, w, last, 1);
}

/* ---- files by hand: the samples are what lies in them from byte 44 on */

static void file_at(uint32_t rate, const uint8_t *file, size_t length)
{
    const struct writing filled = {"a file", rate, length - 44, length, {0, (uint32_t)length}, file};
    const struct writing larger = {"a file", rate, length - 44, length + 100, {0, (uint32_t)length}, file};
    told(&filled, file + 44);
    told(&larger, file + 44);
}

static void files(void)
{
    file_at(8000, BYTES('R', 'I', 'F', 'F', 36, 0, 0, 0, 'W', 'A', 'V', 'E',
                        'f', 'm', 't', ' ', 16, 0, 0, 0, 1, 0, 1, 0,
                        0x40, 0x1f, 0, 0, 0x80, 0x3e, 0, 0, 2, 0, 16, 0,
                        'd', 'a', 't', 'a', 0, 0, 0, 0));
    file_at(11025, BYTES('R', 'I', 'F', 'F', 38, 0, 0, 0, 'W', 'A', 'V', 'E',
                         'f', 'm', 't', ' ', 16, 0, 0, 0, 1, 0, 1, 0,
                         0x11, 0x2b, 0, 0, 0x22, 0x56, 0, 0, 2, 0, 16, 0,
                         'd', 'a', 't', 'a', 2, 0, 0, 0, 0x34, 0x12));
    file_at(44100, BYTES('R', 'I', 'F', 'F', 36, 0, 0, 0, 'W', 'A', 'V', 'E',
                         'f', 'm', 't', ' ', 16, 0, 0, 0, 1, 0, 1, 0,
                         0x44, 0xac, 0, 0, 0x88, 0x58, 1, 0, 2, 0, 16, 0,
                         'd', 'a', 't', 'a', 0, 0, 0, 0));
    file_at(48000, BYTES('R', 'I', 'F', 'F', 42, 0, 0, 0, 'W', 'A', 'V', 'E',
                         'f', 'm', 't', ' ', 16, 0, 0, 0, 1, 0, 1, 0,
                         0x80, 0xbb, 0, 0, 0, 0x77, 1, 0, 2, 0, 16, 0,
                         'd', 'a', 't', 'a', 6, 0, 0, 0, 0, 0x80, 0xff, 0x7f, 0xff, 0xff));
    file_at(96000, BYTES('R', 'I', 'F', 'F', 38, 0, 0, 0, 'W', 'A', 'V', 'E',
                         'f', 'm', 't', ' ', 16, 0, 0, 0, 1, 0, 1, 0,
                         0, 0x77, 1, 0, 0, 0xee, 2, 0, 2, 0, 16, 0,
                         'd', 'a', 't', 'a', 2, 0, 0, 0, 0, 0));
    file_at(192000, BYTES('R', 'I', 'F', 'F', 42, 0, 0, 0, 'W', 'A', 'V', 'E',
                          'f', 'm', 't', ' ', 16, 0, 0, 0, 1, 0, 1, 0,
                          0, 0xee, 2, 0, 0, 0xdc, 5, 0, 2, 0, 16, 0,
                          'd', 'a', 't', 'a', 6, 0, 0, 0, 'd', 'a', 't', 'a', 0xff, 0xff));
}

/* ---- any samples */

static void done(const char *name, uint32_t rate, size_t bytes, size_t room)
{
    static uint8_t file[LONGEST_ROOM];
    memcpy(file, (const uint8_t[]){RIFF(36 + bytes), AT(rate), HEAD("data", bytes)}, 44);
    memcpy(file + 44, any, bytes);
    told(&(struct writing){name, rate, bytes, room, {0, (uint32_t)(44 + bytes)}, file}, any);
}

static void refused(uint32_t number, const char *name, uint32_t rate, size_t bytes, size_t room)
{
    told(&(struct writing){name, rate, bytes, room, {number, 0}, any}, any);
}

static void rates(void)
{
    for (int i = 0; i < RATES_WRITTEN; i++)
        done("a rate that is accepted", rates_written[i], 6, 50);
    for (int i = 0; i < RATES_REFUSED; i++)
        refused(5, "a rate that is refused", rates_refused[i], 6, 50);
}

/* Every length up to some hundreds in room that it fills; ten bytes in every room up to what they take, and
 * beyond. */
static void small_lengths(void)
{
    for (size_t bytes = 0; bytes <= 300; bytes += 2)
        done("a length that is even", 48000, bytes, 44 + bytes);
    for (size_t bytes = 1; bytes <= 300; bytes += 2)
        refused(14, "a length that is odd", 48000, bytes, 44 + bytes);
    for (size_t room = 0; room < 54; room++)
        refused(15, "too little room", 48000, 10, room);
    for (size_t room = 54; room <= 120; room++)
        done("room enough", 48000, 10, room);
    for (size_t room = 0; room < 44; room++)
        refused(15, "too little room for no sample", 48000, 0, room);
    done("room for no sample", 48000, 0, 45);
}

/* Around each power of two up to the most, and room behind that grows with them. */
static void lengths_between(void)
{
    for (size_t power = 512; power < MOST_RECORDED; power *= 2)
        for (size_t bytes = power - 2; bytes <= power + 2; bytes += 2)
            done("a length near a power of two", 48000, bytes, 44 + bytes + power / 4);
}

static void large_lengths(void)
{
    done("the most but one sample", 48000, MOST_RECORDED - 2, MOST_RECORDED + 42);
    refused(15, "the most but one sample", 48000, MOST_RECORDED - 2, MOST_RECORDED + 41);
    refused(14, "the most but one byte", 48000, MOST_RECORDED - 1, MOST_RECORDED + 43);
    done("the most", 48000, MOST_RECORDED, MOST_RECORDED + 44);
    done("the most, and room behind", 48000, MOST_RECORDED, MOST_RECORDED + 45);
    done("the most, and more room behind", 192000, MOST_RECORDED, MOST_RECORDED + 100);
    refused(15, "the most, a byte too little", 48000, MOST_RECORDED, MOST_RECORDED + 43);
    refused(15, "the most, room for the samples alone", 48000, MOST_RECORDED, MOST_RECORDED);
    refused(15, "the most, no room", 48000, MOST_RECORDED, 0);
    refused(14, "a byte more", 48000, MOST_RECORDED + 1, MOST_RECORDED + 45);
    refused(17, "a sample more", 48000, MOST_RECORDED + 2, MOST_RECORDED + 46);
    refused(17, "a sample more, and room behind", 48000, MOST_RECORDED + 2, MOST_RECORDED + 100);
    refused(17, "two samples more", 48000, MOST_RECORDED + 4, MOST_RECORDED + 48);
}

/* ---- refusals that meet: 5, 14, 17, 15 */

static void faults_that_meet(void)
{
    refused(5, "5 and 14", 7999, 7, 51);
    refused(5, "5 and 17", 192001, MOST_RECORDED + 2, MOST_RECORDED + 46);
    refused(5, "5 and 15", 7999, 6, 49);
    refused(14, "14 and 17", 48000, MOST_RECORDED + 3, MOST_RECORDED + 47);
    refused(14, "14 and 15", 48000, 7, 50);
    refused(17, "17 and 15", 48000, MOST_RECORDED + 2, MOST_RECORDED + 45);
    refused(17, "17 and no room", 48000, MOST_RECORDED + 2, 0);
    refused(5, "5, 14 and 17", 0, MOST_RECORDED + 3, MOST_RECORDED + 47);
    refused(5, "5, 14 and 15", 192001, 7, 50);
    refused(5, "5, 17 and 15", 7999, MOST_RECORDED + 2, 44);
    refused(14, "14, 17 and 15", 48000, MOST_RECORDED + 1, 44);
    refused(5, "all four", 192001, MOST_RECORDED + 1, 0);
}

/* ---- all */

void write_checks(void)
{
    group("recordings written: files by hand and limits, at both ends of what can be written");
    check("memory to lend", can_lend() >= LEAST_LENT, 1, can_lend(), 0, 0);
    if (can_lend() < LEAST_LENT)
        return;
    for (size_t i = 0; i < sizeof any; i++)
        any[i] = (uint8_t)(drawn() >> 56);
    files();
    rates();
    small_lengths();
    lengths_between();
    large_lengths();
    faults_that_meet();
    large_write_checks();
    again_checks();
}
