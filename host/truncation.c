/* Checks of truncation: the whole number, and exact or cut, at its borders by hand and elsewhere by a float's
 * digits. */
#include "truncation.h"

#include "checks.h"

#define SIGN 0x80000000u
#define INFINITE 0x7f800000u

#define CUT HOOFGLAZE_CUT
#define EXACT HOOFGLAZE_EXACT

enum { RANDOM = 20000, DIGITS = 23, HIDDEN = 1 << DIGITS, ONE = 127, WHOLE = ONE + DIGITS };

void check_truncated(uint32_t n, hoofglaze_truncation said)
{
    hoofglaze_truncation t = hoofglaze_truncated(float_of(n));
    check("truncated", t.whole, said.whole, n, 0, 0);
    check("truncated's word", t.word, said.word, n, said.whole, 0);
}

/* ---- by hand */

static const struct {
    uint32_t bits;
    hoofglaze_truncation said;
} borders[] = {
    {0x00000000, {0, EXACT}},
    {0x80000000, {0, EXACT}}, /* -0 */
    {0x00000001, {0, CUT}},   /* the subnormals' ends */
    {0x80000001, {0, CUT}},
    {0x007fffff, {0, CUT}},
    {0x807fffff, {0, CUT}},
    {0x00800000, {0, CUT}}, /* the smallest normal number */
    {0x80800000, {0, CUT}},
    {0x3e800000, {0, CUT}}, /* 0.25 */
    {0xbe800000, {0, CUT}},
    {0x3f000000, {0, CUT}}, /* 0.5 */
    {0xbf000000, {0, CUT}},
    {0x3f7fffff, {0, CUT}}, /* 1, and its neighbours */
    {0x3f800000, {1, EXACT}},
    {0x3f800001, {1, CUT}},
    {0xbf7fffff, {0, CUT}},
    {0xbf800000, {0, CUT}},
    {0xbf800001, {0, CUT}},
    {0x3fc00000, {1, CUT}}, /* 1.5 */
    {0x3fffffff, {1, CUT}}, /* 2 */
    {0x40000000, {2, EXACT}},
    {0x40000001, {2, CUT}},
    {0xc0000000, {0, CUT}},
    {0x403fffff, {2, CUT}}, /* 3 */
    {0x40400000, {3, EXACT}},
    {0x40400001, {3, CUT}},
    {0x4515ffff, {2399, CUT}}, /* 2,400 */
    {0x45160000, {2400, EXACT}},
    {0x45160001, {2400, CUT}},
    {0x4a7fffff, {4194303, CUT}}, /* 2^22 - 0.25 */
    {0x4a800000, {4194304, EXACT}},
    {0x4a800001, {4194304, CUT}}, /* 2^22 + 0.5 */
    {0x4affffff, {8388607, CUT}}, /* 2^23 - 0.5: no larger float has a fraction */
    {0x4b000000, {8388608, EXACT}},
    {0x4b000001, {8388609, EXACT}},
    {0x4b7fffff, {16777215, EXACT}},
    {0x4b800000, {16777216, EXACT}}, /* 2^24 */
    {0x4b800001, {16777218, EXACT}},
    {0xcb800000, {0, CUT}},
    {0x4f7fffff, {4294967040, EXACT}},
    {0x4f800000, {4294967296, EXACT}}, /* 2^32 */
    {0x5effffff, {9223371487098961920u, EXACT}},
    {0x5f000000, {9223372036854775808u, EXACT}}, /* 2^63 */
    {0x5f7fffff, {18446742974197923840u, EXACT}}, /* the last below 2^64 */
    {0x5f800000, {UINT64_MAX, CUT}},
    {0x5f800001, {UINT64_MAX, CUT}},
    {0xdf800000, {0, CUT}},
    {0x7f7fffff, {UINT64_MAX, CUT}},
    {0xff7fffff, {0, CUT}},
    {0x7f800000, {UINT64_MAX, CUT}}, /* the infinities */
    {0xff800000, {0, CUT}},
    {0x7fc00000, {0, CUT}}, /* NaN */
    {0xffc00000, {0, CUT}},
    {0x7f800001, {0, CUT}},
    {0xffa12345, {0, CUT}},
};

/* ---- by digits */

/* A float from 0 to below 2^64. Its digits are those of a whole number, but for the last ones where it is below
 * 2^23, which are its fraction. */
static hoofglaze_truncation moved(uint32_t n)
{
    uint32_t exponent = n >> DIGITS;
    uint64_t digits = n % HIDDEN + (exponent ? HIDDEN : 0);
    if (exponent >= WHOLE)
        return (hoofglaze_truncation){digits << (exponent - WHOLE), EXACT};
    if (exponent < ONE)
        return (hoofglaze_truncation){0, digits ? CUT : EXACT};
    uint64_t fraction = digits % ((uint64_t)1 << (WHOLE - exponent));
    return (hoofglaze_truncation){digits >> (WHOLE - exponent), fraction ? CUT : EXACT};
}

static hoofglaze_truncation by_digits(uint32_t n)
{
    if (n % SIGN > INFINITE)
        return (hoofglaze_truncation){0, CUT};
    if (n >= SIGN)
        return (hoofglaze_truncation){0, n == SIGN ? EXACT : CUT};
    return n >> DIGITS < ONE + 64 ? moved(n) : (hoofglaze_truncation){UINT64_MAX, CUT};
}

static void check_digits(uint32_t n)
{
    check_truncated(n, by_digits(n));
    check_truncated(n ^ SIGN, by_digits(n ^ SIGN));
}

/* At every exponent a fraction of none, of each single digit and of all. */
static void each_digit(void)
{
    for (uint32_t exponent = 0; exponent < 256; exponent++) {
        check_digits(exponent << DIGITS);
        check_digits((exponent << DIGITS) + HIDDEN - 1);
        for (int i = 0; i < DIGITS; i++)
            check_digits((exponent << DIGITS) + (1u << i));
    }
}

/* Any float, and a whole number with the floats beside it. */
static void drawn_ones(void)
{
    for (int i = 0; i < RANDOM; i++) {
        uint32_t whole = bytes32((float)(drawn() >> drawn() % 64));
        check_digits((uint32_t)drawn());
        check_digits(whole - 1);
        check_digits(whole);
        check_digits(whole + 1);
    }
}

void truncation_checks(void)
{
    group("float: truncation at its borders, exact or cut, by hand");
    for (unsigned i = 0; i < sizeof borders / sizeof *borders; i++)
        check_truncated(borders[i].bits, borders[i].said);
    group("float: truncation of every exponent, exact or cut, by a float's digits");
    each_digit();
    drawn_ones();
}
