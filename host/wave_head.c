/* Checks of a recording's head alone: heads by hand, each refusal, the order of those that meet, limits, and
 * that a head and its samples are the file that is written whole. Before the output nothing can be touched,
 * then nothing behind it; on its other side, and behind the 44 bytes, every byte must stay. The steps in C are
 * held to the same. */
#include "lent.h"
#include "steps/wave_write.h"
#include "wave_bytes.h"
#include "wave_write.h"

#define MOST_32 ((uint64_t)1 << 32)

enum { LONGEST_ROOM = 300, BESIDE = 256 };

typedef hoofglaze_written (*header)(uint32_t rate, uint64_t bytes, uint8_t *output, size_t room);

struct heading {
    const char *name;
    uint32_t rate;
    uint64_t bytes;
    size_t room;
    uint32_t number; /* what it is refused by, or 0 */
};

/* ---- what is said of it */

static void check_at(const char *call, header write, const struct heading *h, const uint8_t *head, int at_end)
{
    static uint8_t left[LONGEST_ROOM + BESIDE];
    size_t all = h->room + BESIDE, before = at_end ? BESIDE : 0;
    uint8_t *from = room_at(at_end ? can_lend() - all : 0);
    for (size_t i = 0; i < all; i++)
        left[i] = (uint8_t)(i * 167 + (i >> 8) * 59 + 90) ^ (at_end ? 0xff : 0);
    memcpy(from, left, all);
    if (h->number == 0)
        memcpy(left + before, head, 44);
    lent_to(call);
    hoofglaze_written given = write(h->rate, h->bytes, from + before, h->room);
    lent_to(0);
    check_written(h->name, given, (hoofglaze_written){h->number, h->number ? 0 : 44}, h->bytes, h->room);
    check(h->name, same_bytes(from, left, all), all, h->bytes, h->room, 2 + at_end);
}

static void told(const struct heading *h, const uint8_t *head)
{
    for (int at_end = 0; at_end < 2; at_end++) {
        check_at("hoofglaze_wave_head", hoofglaze_wave_head, h, head, at_end);
        check_at("wave_head, the steps in C,", wave_head, h, head, at_end);
    }
}

static void done(const char *name, uint32_t rate, uint64_t bytes, size_t room)
{
    const uint8_t head[] = {RIFF(36 + bytes), AT(rate), HEAD("data", bytes)};
    told(&(struct heading){name, rate, bytes, room, 0}, head);
}

static void refused(uint32_t number, const char *name, uint32_t rate, uint64_t bytes, size_t room)
{
    told(&(struct heading){name, rate, bytes, room, number}, 0);
}

/* ---- heads by hand */

static void by_hand(void)
{
    static const uint8_t empty[] = {'R', 'I', 'F', 'F', 36, 0, 0, 0, 'W', 'A', 'V', 'E',
                                    'f', 'm', 't', ' ', 16, 0, 0, 0, 1, 0, 1, 0,
                                    0x40, 0x1f, 0, 0, 0x80, 0x3e, 0, 0, 2, 0, 16, 0,
                                    'd', 'a', 't', 'a', 0, 0, 0, 0};
    static const uint8_t hour[] = {'R', 'I', 'F', 'F', 0x24, 0xc0, 0x65, 0x52, 'W', 'A', 'V', 'E',
                                   'f', 'm', 't', ' ', 16, 0, 0, 0, 1, 0, 1, 0,
                                   0, 0xee, 2, 0, 0, 0xdc, 5, 0, 2, 0, 16, 0,
                                   'd', 'a', 't', 'a', 0, 0xc0, 0x65, 0x52};
    static const uint8_t most[] = {'R', 'I', 'F', 'F', 0xfe, 0xff, 0xff, 0xff, 'W', 'A', 'V', 'E',
                                   'f', 'm', 't', ' ', 16, 0, 0, 0, 1, 0, 1, 0,
                                   0x80, 0xbb, 0, 0, 0, 0x77, 1, 0, 2, 0, 16, 0,
                                   'd', 'a', 't', 'a', 0xda, 0xff, 0xff, 0xff};
    told(&(struct heading){"no sample at 8,000 Hz", 8000, 0, 44, 0}, empty);
    told(&(struct heading){"an hour at 192,000 Hz", 192000, 1382400000, 45, 0}, hour);
    told(&(struct heading){"the most", 48000, 4294967258, 100, 0}, most);
}

/* ---- rates, sizes and rooms */

static void rates(void)
{
    for (int i = 0; i < RATES_WRITTEN; i++)
        done("a rate that is accepted", rates_written[i], 6, 44);
    for (int i = 0; i < RATES_REFUSED; i++)
        refused(5, "a rate that is refused", rates_refused[i], 6, 44);
}

static void small_sizes(void)
{
    for (uint64_t bytes = 0; bytes <= 300; bytes += 2)
        done("a size that is even", 48000, bytes, 44);
    for (uint64_t bytes = 1; bytes <= 300; bytes += 2)
        refused(14, "a size that is odd", 48000, bytes, 44);
    for (size_t room = 0; room < 44; room++) {
        refused(15, "too little room", 48000, 10, room);
        refused(15, "too little room for no sample", 48000, 0, room);
    }
    for (size_t room = 44; room <= 120; room++)
        done("room enough", 48000, 200, room);
}

/* Around each power of two: samples, RIFF size and file. */
static void powers_of_two(void)
{
    static const uint64_t less[] = {0, 8, 36, 44};
    for (int power = 9; power < 64; power++)
        for (int i = 0; i < 4; i++) {
            uint64_t at = ((uint64_t)1 << power) - less[i];
            for (uint64_t bytes = at - 2; bytes != at + 4; bytes += 2) {
                refused(14, "an odd size near a power of two", 44100, bytes + 1, 44);
                if (bytes <= 4294967258)
                    done("a size near a power of two", 44100, bytes, 44);
                else
                    refused(17, "a size near a power of two", 44100, bytes, 44);
            }
        }
}

static void at_the_limit(void)
{
    for (uint64_t bytes = 4294967240; bytes <= 4294967258; bytes += 2)
        done("up to the most", 48000, bytes, 44);
    for (uint64_t bytes = 4294967260; bytes < MOST_32 + 100; bytes += 2)
        refused(17, "above the most", 48000, bytes, 44);
    for (uint64_t bytes = 4294967257; bytes < MOST_32 + 100; bytes += 2)
        refused(14, "odd, around the most", 48000, bytes, 44);
    for (int power = 32; power < 64; power++) {
        refused(17, "no sample in 32 bits", 48000, (uint64_t)1 << power, 44);
        refused(17, "three samples in 32 bits", 48000, ((uint64_t)1 << power) + 6, 44);
        refused(14, "odd in 32 bits", 48000, ((uint64_t)1 << power) + 7, 44);
    }
    refused(17, "2^64 - 2", 48000, UINT64_MAX - 1, 44);
    refused(17, "2^64 - 36", 48000, UINT64_MAX - 35, 44);
    refused(14, "2^64 - 1", 48000, UINT64_MAX, 44);
}

/* ---- refusals that meet: 5, 14, 17, 15 */

static void faults_that_meet(void)
{
    refused(5, "5 and 14", 7999, 7, 44);
    refused(5, "5 and 17", 192001, 4294967260, 44);
    refused(5, "5 and 15", 7999, 6, 43);
    refused(14, "14 and 17", 48000, 4294967259, 44);
    refused(14, "14 and 17, 2^64 - 1", 48000, UINT64_MAX, 44);
    refused(14, "14 and 15", 48000, 7, 43);
    refused(17, "17 and 15", 48000, 4294967260, 43);
    refused(17, "17 and no room", 48000, MOST_32, 0);
    refused(5, "5, 14 and 17", 0, MOST_32 + 1, 44);
    refused(5, "5, 14 and 15", 192001, 7, 0);
    refused(5, "5, 17 and 15", 7999, (uint64_t)1 << 63, 43);
    refused(14, "14, 17 and 15", 48000, UINT64_MAX, 43);
    refused(5, "all four", 192001, UINT64_MAX, 0);
}

/* ---- head and samples together */

/* The file that is written whole begins with the head, and is read as it says. */
static void check_whole(uint32_t rate, size_t bytes)
{
    static uint8_t samples[MOST_RECORDED], file[44 + MOST_RECORDED], whole[44 + MOST_RECORDED];
    for (size_t i = 0; i < bytes && samples[i] == 0; i++)
        samples[i] = (uint8_t)(drawn() >> 56 | 1);
    hoofglaze_written head = hoofglaze_wave_head(rate, bytes, file, 44);
    memcpy(file + 44, samples, bytes);
    hoofglaze_written given = hoofglaze_wave_write(rate, samples, bytes, whole, 44 + bytes);
    check_written("wave_head", head, (hoofglaze_written){0, 44}, rate, bytes);
    check_written("wave_write", given, (hoofglaze_written){0, (uint32_t)(44 + bytes)}, rate, bytes);
    check("head and samples", same_bytes(file, whole, 44 + bytes), 44 + bytes, rate, bytes, 0);
    hoofglaze_wave read = hoofglaze_wave_read(file, 44 + bytes);
    check_wave("head and samples, read", read, (hoofglaze_wave){0, rate, 44, bytes}, rate, bytes);
}

static void whole_files(void)
{
    for (size_t bytes = 0; bytes <= 400; bytes += 2)
        check_whole(8000 + 400 * (uint32_t)bytes, bytes);
    for (size_t power = 512; power <= MOST_RECORDED; power *= 2) {
        check_whole(44100, power - 44);
        check_whole(48000, power - 2);
        check_whole(192000, power);
    }
    for (int i = 0; i < 200; i++)
        check_whole(8000 + drawn() % 184001, drawn() % (i % 10 ? 2000 : MOST_RECORDED / 2) * 2);
}

/* ---- all */

void head_checks(void)
{
    group("recordings' heads: by hand, limits, and with samples behind");
    check("memory to lend", can_lend() >= LEAST_LENT, 1, can_lend(), 0, 0);
    if (can_lend() < LEAST_LENT)
        return;
    by_hand();
    rates();
    small_sizes();
    powers_of_two();
    at_the_limit();
    faults_that_meet();
    whole_files();
    large_head_checks();
}
