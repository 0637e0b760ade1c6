/* Checks of what the leveller's calls are lent: samples and names that begin or end with what can be read, and
 * an output that does so with what can be written. On the output's other side every byte must stay. */
#include "leveller.h"
#include "lent.h"
#include "wave_write.h"

enum { BESIDE = 256 };

#define FLOATS(count) ((count) * sizeof(float))

static const uint8_t *lent_there(const void *bytes, size_t length, int at_end)
{
    return at_end ? lent_at_end(bytes, length) : lent_at(0, bytes, length);
}

/* ---- buffers */

/* What the output and the memory beside it hold before a call, other bytes at each end. */
static void prepare(uint8_t *from, size_t bytes, int at_end)
{
    for (size_t i = 0; i < bytes; i++)
        from[i] = (uint8_t)(i * 167 + (i >> 8) * 59 + 90) ^ (at_end ? 0xff : 0);
}

static void check_lent(hoofglaze_leveller l, size_t samples, size_t places, uint32_t number, int at_end)
{
    static uint8_t left[FLOATS(ROOM) + BESIDE];
    size_t all = FLOATS(places) + BESIDE, before = at_end ? BESIDE : 0;
    uint8_t *from = room_at(at_end ? can_lend() - all : 0);
    const float *lent = (const float *)lent_there(input, FLOATS(samples), at_end);
    hoofglaze_leveller said = l;
    prepare(from, all, at_end);
    memcpy(left, from, all);
    for (size_t i = 0; number == 0 && i < samples; i++)
        expected[i] = leveller.step(&said, input[i]);
    if (number == 0)
        memcpy(left + before, expected, FLOATS(samples));
    lent_to("hoofglaze_leveller_block");
    hoofglaze_answer a = leveller.block(&l, lent, samples, (float *)(from + before), places);
    lent_to(0);
    check_answer("a lent block", a, number, number == 6 ? samples - 1 : 0, 0, 0);
    check_state(&leveller, "a lent block's state", &l, &said);
    check("a lent block's output", same_bytes(from, left, all), all, samples, places, (uint64_t)at_end);
}

static void buffers(int at_end)
{
    static const size_t lengths[] = {0,  1,  2,  3,  4,  5,  7,    8,           9,
                                     15, 16, 17, 31, 33, 64, 1000, LONGEST - 1, LONGEST};
    hoofglaze_leveller l, bad;
    for (int i = 0; i < COUNT(lengths); i++) {
        size_t n = lengths[i];
        leveller.draw(&l);
        leveller.put(&l, RATIO, good_ratio[i % RATIOS]);
        bad = l;
        leveller.put(&bad, LEVEL, ODD_NAN);
        draw_input();
        check_lent(l, n, n, 0, at_end);
        check_lent(bad, n, n, 9, at_end);
        check_lent(l, n, n + 1, 7, at_end);
        check_lent(l, n + 1, n, 7, at_end);
        check_lent(l, ROOM, n, 7, at_end);
        if (n == 0)
            continue;
        input[n - 1] = float_of(SIXTY_FOUR + 1);
        check_lent(l, n, n, 6, at_end);
    }
    check_lent(l, ROOM, ROOM, 8, at_end);
}

/* ---- names */

/* Each name, a part of it and more than it. */
static void check_name(const struct leveller_setting *n, size_t bytes, int at_end)
{
    hoofglaze_leveller l;
    char text[32] = {0};
    uint32_t number = bytes == strlen(n->name) ? 0 : 1;
    float value = n->place == THRESHOLD ? 0 : 1;
    leveller.draw(&l);
    l.settings.threshold.decibels = 0;
    l.settings.ratio = l.settings.attack = l.settings.release = l.settings.makeup.factor = 1;
    hoofglaze_leveller said = l;
    if (number == 0 && n->worked >= 0)
        leveller.put(&said, n->worked, HALF);
    memcpy(text, n->name, strlen(n->name));
    const uint8_t *name = lent_there(text, bytes, at_end);
    lent_to("hoofglaze_leveller_set");
    hoofglaze_leveller_answered a = hoofglaze_leveller_set(l, name, bytes, value, 0.5f);
    check_call(&leveller, "leveller_set", a.answer, &a.leveller, number, &said);
    lent_to("hoofglaze_leveller_read");
    hoofglaze_answer b = hoofglaze_leveller_read(l, name, bytes);
    lent_to(0);
    check_answer("leveller_read", b, number, 0, 0, number == 0 ? bytes32(value) : 0);
}

void leveller_lent_checks(void)
{
    group("leveller: buffers and names at both ends of what can be read and written");
    check("memory to lend", can_lend() >= LEAST_LENT, 1, can_lend(), 0, 0);
    if (can_lend() < LEAST_LENT)
        return;
    for (int at_end = 0; at_end < 2; at_end++) {
        buffers(at_end);
        for (int i = 0; i < NAMED; i++)
            for (size_t bytes = 0; bytes <= strlen(leveller_settings[i].name) + 2; bytes++)
                check_name(&leveller_settings[i], bytes, at_end);
    }
}
