/* Checks of the square root: the processor's own, which is the nearest too, has the same bits, and by squares
 * of whole numbers no float is nearer. host/every_root has all floats. */
#include "checks.h"
#include "hoofglaze.h"
#include "steps/root.h"

#define SIGN 0x80000000u
#define INFINITE 0x7f800000u
#define ONE 0x3f800000u
#define TWO 0x40000000u
#define FOUR 0x40800000u
#define BINADE 0x00800000u /* floats of one exponent, and the smallest that is no subnormal */

enum { EXPONENTS = 255, DRAWN = 4096, ENDS = 4, STRIDE = 41, MIDDLES = 100000, BELOW = 50000 };

static uint32_t root(uint32_t x)
{
    return bytes32(hoofglaze_root32(float_of(x)));
}

static void check_root(uint32_t x)
{
    uint32_t given = root(x);
    check("root32", given, root_of_c(x), x, 0, 0);
    if (x > 0 && x < INFINITE)
        check("root32 by squares", is_nearest_root(x, given), 1, x, given, 0);
}

/* Floats of every exponent, and the first and the last of each. */
static void every_exponent(void)
{
    group("root: every exponent");
    for (uint32_t exponent = 1; exponent < EXPONENTS; exponent++) {
        uint32_t first = exponent * BINADE;
        for (uint32_t i = 0; i < ENDS; i++) {
            check_root(first + i);
            check_root(first + BINADE - 1 - i);
        }
        for (int i = 0; i < DRAWN; i++)
            check_root(first + drawn() % BINADE);
    }
    for (uint32_t x = ONE; x < FOUR; x += STRIDE)
        check_root(x);
}

/* Whole numbers whose squares are floats, by powers of two. */
static void squares(void)
{
    static const double scales[] = {0x1p-74, 0x1p-69, 0x1p-63, 0x1p-30, 1, 2, 0x1p31, 0x1p52};
    group("root: squares, and floats next to them");
    for (int q = 1; q < 4096; q++)
        for (unsigned i = 0; i < sizeof scales / sizeof *scales; i++) {
            uint32_t y = bytes32((float)(q * scales[i]));
            uint32_t x = bytes32((float)((double)q * q * scales[i] * scales[i]));
            check("root32 of a square", root(x), y, x, 0, 0);
            check_root(x - 1);
            check_root(x + 1);
        }
}

/* The two floats from 1 up to 4 that lie next to the square of what is halfway between two roots. */
static void check_halfway(uint64_t q)
{
    uint64_t n = q * q + q;
    int above = n >> 47 != 0;
    uint32_t x = (above ? TWO : ONE) + (uint32_t)(n >> (23 + above)) - BINADE;
    uint32_t y = ONE + (uint32_t)q - BINADE;
    check("root32 below halfway", root(x), y, x, q, 0);
    check("root32 above halfway", root(x + 1), y + 1, x + 1, q, 0);
}

static void halfway(void)
{
    group("root: next to halfway between two floats");
    for (uint32_t i = 0; i < ENDS; i++) {
        check_halfway(BINADE + i);
        check_halfway(2 * BINADE - 1 - i);
    }
    for (int i = 0; i < MIDDLES; i++)
        check_halfway(BINADE + drawn() % BINADE);
}

static void subnormals(void)
{
    group("root: subnormals");
    for (uint32_t digit = 1; digit < BINADE; digit *= 2)
        for (uint32_t next = 0; next < 2 * ENDS; next++)
            if (digit + next > ENDS)
                check_root(digit + next - ENDS);
    for (int i = 0; i < BELOW; i++) {
        check_root((uint32_t)(1 + drawn() % (BINADE - 1)));
        check_root((uint32_t)(1 + drawn() % (BINADE - 1)) >> drawn() % 16 | 1);
    }
}

/* Zeros, infinities, NaNs and what is below zero. */
static void no_roots(void)
{
    group("root: zeros, infinities, NaNs and below zero");
    check("root32", root(0), 0, 0, 0, 0);
    check("root32", root(SIGN), SIGN, SIGN, 0, 0);
    check("root32", root(INFINITE), INFINITE, INFINITE, 0, 0);
    check("root32", root(SIGN + INFINITE), QUIET32, SIGN + INFINITE, 0, 0);
    for (int i = 0; i < SPECIAL; i++)
        check_root((uint32_t)special_bits(SIGN, INFINITE, i));
    for (int i = 0; i < NANS; i++) {
        uint32_t nan = (uint32_t)nan_bits(SIGN, INFINITE, i);
        check("root32", root(nan), QUIET32, nan, 0, 0);
    }
    for (int i = 0; i < BELOW; i++) {
        uint32_t below = SIGN + 1 + (uint32_t)(drawn() % INFINITE);
        check("root32", root(below), QUIET32, below, 0, 0);
    }
}

void root_checks(void)
{
    every_exponent();
    squares();
    halfway();
    subnormals();
    no_roots();
}
