/* Checks of recordings and heads beyond 32 bits: of the RIFF size and 8, of a place, of a length, of room.
 * They are lent near an end of what can be read or written, and most of each is never touched. */
#include <stdio.h>

#include "lent.h"
#include "wave_bytes.h"
#include "wave_write.h"

#define LARGE ((uint64_t)1 << 32)

static const hoofglaze_wave past = {11, 0, 0, 0}, none = {12, 0, 0, 0}, odd = {14, 0, 0, 0};

/* A chunk up to 2 bytes below 2^32, and the samples' head behind it. */
static void large_places(uint64_t at)
{
    const hoofglaze_wave empty = {0, 48000, LARGE + 6, 0};
    const uint8_t *from = lent_at(at, BYTES(RIFF(0xffffffff), GOOD, HEAD("LIST", LARGE - 46)));
    lent_at(at + LARGE - 2, BYTES(HEAD("data", 0)));
    check_readers("data's head ends at the RIFF size and 7", empty, from, MOST_LENT - at);
    check_readers("data's head ends the file", empty, from, LARGE + 6);
    check_readers("data's head is cut", past, from, LARGE + 5);
    check_readers("no data's head", none, from, LARGE - 2);
    check_readers("a byte of data's head", past, from, LARGE - 1);
    lent_at(at + LARGE - 2, BYTES(HEAD("data", 1)));
    check_readers("a byte up to the RIFF size and 8", odd, from, MOST_LENT - at);
    check_readers("a byte past the file", past, from, LARGE + 6);
    lent_at(at + LARGE - 2, BYTES(HEAD("data", 2)));
    check_readers("a byte past the RIFF size and 8", past, from, MOST_LENT - at);
}

static void large_lengths(uint64_t at)
{
    const hoofglaze_wave most = {0, 48000, 44, LARGE - 38};
    const uint8_t *from = lent_at(at, BYTES(RIFF(0xffffffff), GOOD, HEAD("data", LARGE - 38)));
    check_readers("the most samples", most, from, MOST_LENT - at);
    check_readers("the most samples, to the file's end", most, from, LARGE + 6);
    check_readers("the most samples, cut", past, from, LARGE + 5);
    lent_at(at, BYTES(RIFF(0xffffffff), GOOD, HEAD("data", LARGE - 37)));
    check_readers("odd, up to the RIFF size and 8", odd, from, MOST_LENT - at);
    lent_at(at, BYTES(RIFF(0xffffffff), GOOD, HEAD("data", LARGE - 36)));
    check_readers("a byte past the RIFF size and 8", past, from, MOST_LENT - at);
}

static int can_lend_large(void)
{
    if (can_lend() < MOST_LENT)
        printf("  not tried: it takes 12 GB of addresses, and they can't be had\n");
    return can_lend() >= MOST_LENT;
}

void large_checks(void)
{
    group("recordings: files beyond 32 bits");
    if (!can_lend_large())
        return;
    large_places(MOST_LENT - (LARGE + 7));
    large_places(MOST_LENT - (LARGE + 1024));
    large_lengths(MOST_LENT - (LARGE + 7));
    large_lengths(MOST_LENT - (LARGE + 1024));
}

/* ---- written */

enum { LOOKED_AT = 256 };

/* Samples that end with what can be read, of which none is looked at, and the first bytes of an output that
 * ends with the room. */
static void refused(uint32_t number, const char *name, uint64_t bytes, uint64_t room)
{
    uint8_t before[LOOKED_AT], *output = room_at(MOST_LENT - room);
    size_t some = room < LOOKED_AT ? room : LOOKED_AT;
    memset(before, 0x5a, sizeof before);
    memcpy(output, before, some);
    lent_to("hoofglaze_wave_write");
    const uint8_t *samples = lent_at_end(before, 0) - bytes;
    hoofglaze_written given = hoofglaze_wave_write(48000, samples, bytes, output, room);
    lent_to(0);
    check_written(name, given, (hoofglaze_written){number, 0}, bytes, room);
    check(name, same_bytes(output, before, some), some, bytes, room, 2);
}

static void done(const char *name, uint64_t at, uint64_t room)
{
    static const uint8_t file[] = {RIFF(42), GOOD, SAMPLES};
    uint8_t said[LOOKED_AT], *output = room_at(at);
    memset(said, 0x5a, sizeof said);
    memcpy(output, said, sizeof said);
    memcpy(said, file, sizeof file);
    lent_to("hoofglaze_wave_write");
    hoofglaze_written given = hoofglaze_wave_write(48000, lent_at_end(file + 44, 6), 6, output, room);
    lent_to(0);
    check_written(name, given, (hoofglaze_written){0, 50}, at, room);
    check(name, same_bytes(output, said, sizeof said), sizeof said, at, room, 2);
}

void large_write_checks(void)
{
    group("recordings written: samples and room beyond 32 bits");
    if (!can_lend_large())
        return;
    refused(17, "2^32 bytes", LARGE, LARGE + 44);
    refused(17, "2^32 bytes, room for none of them", LARGE, 44);
    refused(14, "2^32 + 1 bytes", LARGE + 1, LARGE + 45);
    refused(14, "2^32 + 1 bytes, no room", LARGE + 1, 0);
    refused(17, "2^32 + 2 bytes", LARGE + 2, LARGE + 46);
    refused(17, "2^32 + 2 bytes, room for two", LARGE + 2, 46);
    refused(17, "2^32 bytes with the head", LARGE - 44, LARGE);
    refused(17, "2^32 bytes with the head, no room", LARGE - 44, 0);
    refused(17, "2^31 bytes", LARGE / 2, LARGE);
    done("room of 2^32 bytes", MOST_LENT - LARGE, LARGE);
    done("room of 2^32 + 10 bytes", 0, LARGE + 10);
    done("room of 2^32 + 49 bytes", MOST_LENT - (LARGE + 49), LARGE + 49);
    done("room of 2^31 bytes", 0, LARGE / 2);
}

/* ---- heads */

/* A head before so many bytes that nothing wrote, all lent: to the file's end, with bytes behind, and cut. */
static void headed(const char *name, uint32_t rate, uint64_t bytes)
{
    uint8_t head[44];
    const hoofglaze_wave said = {0, rate, 44, bytes};
    hoofglaze_written given = hoofglaze_wave_head(rate, bytes, head, sizeof head);
    check_written(name, given, (hoofglaze_written){0, 44}, rate, bytes);
    const uint8_t *from = lent_at(MOST_LENT - 44 - bytes, head, sizeof head);
    check_readers(name, said, from, 44 + bytes);
    check_readers(name, past, from, 43 + bytes);
    from = lent_at(MOST_LENT - 1000 - bytes, head, sizeof head);
    check_readers(name, said, from, 1000 + bytes);
}

/* Room whose lower 32 bits are too few. */
static void head_in_room(const char *name, uint64_t room)
{
    static const uint8_t head[] = {RIFF(42), GOOD, HEAD("data", 6)};
    uint8_t said[LOOKED_AT], *output = room_at(MOST_LENT - room);
    memset(said, 0x5a, sizeof said);
    memcpy(output, said, sizeof said);
    memcpy(said, head, sizeof head);
    lent_to("hoofglaze_wave_head");
    hoofglaze_written given = hoofglaze_wave_head(48000, 6, output, room);
    lent_to(0);
    check_written(name, given, (hoofglaze_written){0, 44}, 6, room);
    check(name, same_bytes(output, said, sizeof said), sizeof said, 6, room, 2);
}

void large_head_checks(void)
{
    group("recordings' heads: samples and room beyond 32 bits");
    if (!can_lend_large())
        return;
    headed("the most", 48000, LARGE - 38);
    headed("the most but one sample", 192000, LARGE - 40);
    headed("2^32 bytes with the head", 8000, LARGE - 44);
    headed("2^31 bytes", 44100, LARGE / 2);
    headed("2^31 - 2 bytes", 96000, LARGE / 2 - 2);
    headed("an hour", 48000, 345600000);
    headed("a sample more than is written whole", 48000, MOST_RECORDED + 2);
    head_in_room("room of 2^32 bytes", LARGE);
    head_in_room("room of 2^32 + 43 bytes", LARGE + 43);
    head_in_room("room of 2^31 bytes", LARGE / 2);
}
