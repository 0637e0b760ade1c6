/* Checks of recordings that are written and read again: what a call answers and leaves is what the steps in C
 * do, it is read as it was written, and what is read is written again as the same bytes; but for files with
 * other chunks, with bytes behind their samples or with another RIFF size. */
#include <stdio.h>

#include "lent.h"
#include "steps/wave.h"
#include "steps/wave_write.h"
#include "wave_bytes.h"
#include "wave_write.h"

enum { WRITINGS = 300000, FILES = 100000, LONGEST = 400, POOL = 1 << 16, BESIDE = 64 };

/* Room for what is written, more than it takes, and what lies on both sides. */
enum { ALL = 44 + LONGEST + 400 + 2 * BESIDE };

enum { HIGHEST = 17 };

static uint8_t pool[POOL];

/* ---- a writing */

struct writing {
    uint32_t rate;
    size_t bytes, room;
    const uint8_t *samples;
};

static uint32_t draw_rate(uint64_t r)
{
    static const uint32_t edges[] = {0, 7999, 8000, 11025, 48000, 192000, 192001, 0x80005dc0};
    if (r % 8 == 0)
        return edges[(r >> 8) % (sizeof edges / sizeof *edges)];
    return r % 64 == 1 ? (uint32_t)(r >> 32) : 8000 + (uint32_t)((r >> 32) % 184001);
}

/* Near what the file takes, more, or any that is less. */
static size_t draw_room(size_t takes, uint64_t r)
{
    switch (r % 8) {
    case 0: return (r >> 8) % takes;
    case 1: return takes - 1 - (r >> 8) % 3;
    case 2: return takes + (r >> 8) % 400;
    default: return takes + (r >> 8) % 4;
    }
}

/* Samples of any bytes; now and then more than the most, of which no byte is put there. */
static struct writing draw_writing(void)
{
    uint64_t r = drawn(), q = drawn();
    struct writing w = {.rate = draw_rate(r), .bytes = q % (LONGEST + 1)};
    if (q >> 32 & 15)
        w.bytes &= ~(size_t)1;
    w.room = draw_room(44 + w.bytes, q >> 16);
    if ((q >> 40) % 16 == 0) {
        w.bytes = MOST_RECORDED + 1 + (q >> 48) % 64;
        w.samples = lent_at(can_lend() - w.bytes, pool, 0);
    } else {
        w.samples = lent_at_end(pool + (q >> 44) % (POOL - LONGEST), w.bytes);
    }
    return w;
}

/* What lies there before: any bytes, and every fourth time an earlier file at the output's start. */
static void prepare(uint8_t *from, size_t before, size_t room, uint64_t r)
{
    static const uint8_t earlier[] = {RIFF(0xffff), AT(16000), HEAD("data", 40)};
    memcpy(from, pool + r % (POOL - ALL), room + BESIDE);
    if (r >> 32 & 3 || room < sizeof earlier)
        return;
    memcpy(from + before, earlier, sizeof earlier);
}

/* ---- read as it was written, and written again */

static void check_again(const char *call, const uint8_t *file, size_t bytes, const struct writing *w)
{
    static uint8_t again[ALL];
    size_t length = 44 + w->bytes;
    hoofglaze_wave read = hoofglaze_wave_read(file, bytes);
    check_wave(call, read, (hoofglaze_wave){0, w->rate, 44, w->bytes}, w->bytes, bytes);
    if (read.length != w->bytes)
        return;
    const uint8_t *samples = file + read.place;
    check(call, same_bytes(samples, w->samples, w->bytes), w->bytes, w->bytes, bytes, 4);
    hoofglaze_written given = hoofglaze_wave_write(read.rate, samples, read.length, again, length);
    check_written(call, given, (hoofglaze_written){0, (uint32_t)length}, w->bytes, bytes);
    check(call, same_bytes(again, file, length), length, w->bytes, bytes, 5);
}

/* By the library where the output ends with the room, every other time where it begins with it; by the steps
 * in C in memory of their own. */
static uint32_t check_drawn(int i)
{
    static uint8_t said[ALL];
    struct writing w = draw_writing();
    size_t all = w.room + BESIDE, before = i % 2 ? BESIDE : 0;
    uint8_t *from = room_at(i % 2 ? can_lend() - all : 0);
    prepare(said, before, w.room, drawn());
    memcpy(from, said, all);
    hoofglaze_written by_steps = wave_write(w.rate, w.samples, w.bytes, said + before, w.room);
    hoofglaze_written given = hoofglaze_wave_write(w.rate, w.samples, w.bytes, from + before, w.room);
    check_written("wave_write", given, by_steps, w.bytes, w.room);
    check("wave_write", same_bytes(from, said, all), all, w.bytes, w.room, 2);
    if (by_steps.number == 0)
        check_again("wave_read of what is written", from + before, w.room, &w);
    return by_steps.number;
}

/* Every answer comes often enough. */
static void drawn_writings(void)
{
    static const int numbers[] = {0, 5, 14, 15, 17};
    unsigned long seen[HIGHEST + 1] = {0};
    lent_to("hoofglaze_wave_write");
    for (int i = 0; i < WRITINGS; i++)
        seen[check_drawn(i)]++;
    lent_to(0);
    printf("  %d writings: %lu done", WRITINGS, seen[0]);
    for (unsigned i = 1; i < sizeof numbers / sizeof *numbers; i++)
        printf(", %lu refused by %d", seen[numbers[i]], numbers[i]);
    printf("\n");
    for (unsigned i = 0; i < sizeof numbers / sizeof *numbers; i++)
        check("writings", seen[numbers[i]] >= WRITINGS / 100, 1, numbers[i], seen[numbers[i]], 0);
}

/* ---- files that come out otherwise */

enum kind { SAME, ANOTHER_SIZE, OTHER_CHUNKS, BYTES_BEHIND, KINDS };

static uint64_t riff_size(const uint8_t *file)
{
    return little(file + 4, 4);
}

static enum kind kind_of(const uint8_t *file, size_t length, hoofglaze_wave w)
{
    if (w.place != 44)
        return OTHER_CHUNKS;
    if (44 + w.length != length)
        return BYTES_BEHIND;
    return riff_size(file) == 36 + w.length ? SAME : ANOTHER_SIZE;
}

/* A file that is read, as it is written again in room that it fills. */
static enum kind check_rewritten(const uint8_t *file, size_t length, hoofglaze_wave w)
{
    static uint8_t again[LONGEST_FILE];
    enum kind kind = kind_of(file, length, w);
    const struct writing as_read = {w.rate, w.length, 44 + w.length, file + w.place};
    hoofglaze_written given = hoofglaze_wave_write(w.rate, file + w.place, w.length, again, 44 + w.length);
    check_written("wave_write", given, (hoofglaze_written){0, (uint32_t)(44 + w.length)}, length, kind);
    check_again("a file written again", again, given.length, &as_read);
    check("a file that comes out shorter", given.length < length, kind >= OTHER_CHUNKS, length, kind, 0);
    if (kind >= OTHER_CHUNKS)
        return kind;
    check("a RIFF size", riff_size(file) > riff_size(again), kind == ANOTHER_SIZE, length, kind, 0);
    memcpy(again + 4, file + 4, kind == ANOTHER_SIZE ? 4 : 0);
    check("a file written again", same_bytes(again, file, length), length, length, kind, 0);
    return kind;
}

static void drawn_files(void)
{
    static uint8_t file[LONGEST_FILE];
    unsigned long seen[KINDS] = {0};
    for (int i = 0; i < FILES;) {
        size_t length = draw_file(file);
        hoofglaze_wave w = hoofglaze_wave_read(file, length);
        if (w.number == 0)
            seen[check_rewritten(file, length, w)]++, i++;
    }
    printf("  %d files written again: %lu the same, %lu with another RIFF size", FILES, seen[SAME],
           seen[ANOTHER_SIZE]);
    printf(", %lu without other chunks, %lu without bytes behind\n", seen[OTHER_CHUNKS], seen[BYTES_BEHIND]);
    for (int i = 0; i < KINDS; i++)
        check("files of each kind", seen[i] >= FILES / 1000, 1, i, seen[i], 0);
}

/* A sample more than can be written can be read. */
static void too_long(void)
{
    static uint8_t file[44 + MOST_RECORDED + 2], again[sizeof file];
    memcpy(file, (const uint8_t[]){RIFF(36 + MOST_RECORDED + 2), GOOD, HEAD("data", MOST_RECORDED + 2)}, 44);
    hoofglaze_wave w = hoofglaze_wave_read(file, sizeof file);
    check_wave("a long file", w, (hoofglaze_wave){0, 48000, 44, MOST_RECORDED + 2}, 0, 0);
    hoofglaze_written given = hoofglaze_wave_write(w.rate, file + 44, w.length, again, sizeof again);
    check_written("a long file", given, (hoofglaze_written){17, 0}, 0, 0);
}

void again_checks(void)
{
    group("recordings written: drawn ones, read and written again");
    for (size_t i = 0; i < sizeof pool; i++)
        pool[i] = (uint8_t)(drawn() >> 56);
    drawn_writings();
    drawn_files();
    too_long();
}
