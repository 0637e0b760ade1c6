/* Checks of the float functions: every NaN that one returns is the quiet one, and values are those
 * of the C library and the processor. Numbers are handled as their bits, so both widths share them. */
#include <math.h>

#include "checks.h"
#include "truncation.h"

enum { RANDOM = 2000 };

struct width {
    uint64_t sign, infinity, quiet;
    const char *fma_name, *size_name;
    uint64_t (*fma)(uint64_t a, uint64_t b, uint64_t c);
    uint64_t (*fma_of_c)(uint64_t a, uint64_t b, uint64_t c);
    uint64_t (*size)(uint64_t x);
    uint64_t (*size_of_c)(uint64_t x);
};

static uint64_t fma32(uint64_t a, uint64_t b, uint64_t c)
{
    return bytes32(hoofglaze_fma32(float_of(a), float_of(b), float_of(c)));
}

static uint64_t fma32_of_c(uint64_t a, uint64_t b, uint64_t c)
{
    return bytes32(fmaf(float_of(a), float_of(b), float_of(c)));
}

static uint64_t size32(uint64_t x)
{
    return bytes32(hoofglaze_size32(float_of(x)));
}

static uint64_t size32_of_c(uint64_t x)
{
    return bytes32(fabsf(float_of(x)));
}

static uint64_t fma64(uint64_t a, uint64_t b, uint64_t c)
{
    return bytes64(hoofglaze_fma64(double_of(a), double_of(b), double_of(c)));
}

static uint64_t fma64_of_c(uint64_t a, uint64_t b, uint64_t c)
{
    return bytes64(fma(double_of(a), double_of(b), double_of(c)));
}

static uint64_t size64(uint64_t x)
{
    return bytes64(hoofglaze_size64(double_of(x)));
}

static uint64_t size64_of_c(uint64_t x)
{
    return bytes64(fabs(double_of(x)));
}

static const struct width widths[2] = {
    {0x80000000u, 0x7f800000u, QUIET32, "fma32", "size32",
     fma32, fma32_of_c, size32, size32_of_c},
    {0x8000000000000000u, 0x7ff0000000000000u, QUIET64, "fma64", "size64",
     fma64, fma64_of_c, size64, size64_of_c},
};

static const struct width *const single = &widths[0];
static const struct width *const wide = &widths[1];

static int is_nan(const struct width *w, uint64_t n)
{
    return n % w->sign > w->infinity;
}

/* The lowest digit of the exponent: what a normal number's significand has above its fraction. */
static uint64_t hidden(const struct width *w)
{
    return w->infinity & -w->infinity;
}

static uint64_t special(const struct width *w, int i)
{
    return special_bits(w->sign, w->infinity, i);
}

static uint64_t nan_of(const struct width *w, int i)
{
    return nan_bits(w->sign, w->infinity, i);
}

static void check_fma(const struct width *w, uint64_t a, uint64_t b, uint64_t c, uint64_t expected)
{
    check(w->fma_name, w->fma(a, b, c), expected, a, b, c);
}

/* P1 to P5 of the proved table. */
static void table(void)
{
    group("float: P1 to P5");
    check_fma(single, 0x3f800001, 0x3f800001, 0xbf800002, 0x28800000);
    check_fma(single, 0x7f7fffff, 0x40000000, 0xff7fffff, 0x7f7fffff);
    check_fma(single, 0x00000001, 0x3f000000, 0x00000000, 0x00000000);
    check_fma(single, 0x3f800000, 0x80000000, 0x80000000, 0x80000000);
    check_fma(single, 0x3f800000, 0x3f800000, 0xbf800000, 0x00000000);
    check_fma(single, 0x7f800000, 0x00000000, 0x3f800000, QUIET32);
}

/* A NaN in each place of fma, beside numbers and another NaN. */
static void nan_beside(const struct width *w, uint64_t nan)
{
    uint64_t other = nan_of(w, drawn() % NANS);
    for (int i = 0; i <= SPECIAL; i++)
        for (int j = 0; j <= SPECIAL; j++) {
            uint64_t x = i < SPECIAL ? special(w, i) : other;
            uint64_t y = j < SPECIAL ? special(w, j) : other;
            check_fma(w, nan, x, y, w->quiet);
            check_fma(w, x, nan, y, w->quiet);
            check_fma(w, x, y, nan, w->quiet);
        }
}

static void nan_operands(void)
{
    group("float: NaN operands");
    for (const struct width *w = widths; w < widths + 2; w++)
        for (int i = 0; i < NANS; i++) {
            uint64_t nan = nan_of(w, i);
            nan_beside(w, nan);
            check(w->size_name, w->size(nan), w->quiet, nan, 0, 0);
        }
    for (int i = 0; i < NANS; i++) {
        uint64_t n = nan_of(single, i), m = nan_of(wide, i);
        check("widened", bytes64(hoofglaze_widened(float_of(n))), QUIET64, n, 0, 0);
        check("narrowed", bytes32(hoofglaze_narrowed(double_of(m))), QUIET32, m, 0, 0);
        check_truncated(n, (hoofglaze_truncation){0, HOOFGLAZE_CUT});
        check("bits32", hoofglaze_bits32(float_of(n)), QUIET32, n, 0, 0);
        check("bits64", hoofglaze_bits64(double_of(m)), QUIET64, m, 0, 0);
        check("from_bits32", bytes32(hoofglaze_from_bits32(n)), QUIET32, n, 0, 0);
        check("from_bits64", bytes64(hoofglaze_from_bits64(m)), QUIET64, m, 0, 0);
    }
}

/* Infinity times zero, whatever is added; and infinity times any but zero, with the opposite
 * infinity. */
static void invalid_operations(void)
{
    group("float: invalid operations");
    for (const struct width *w = widths; w < widths + 2; w++)
        for (int i = 0; i < SPECIAL; i++)
            for (int s = 0; s < 4; s++) {
                uint64_t infinity = w->infinity + (s % 2 ? w->sign : 0);
                uint64_t zero = s / 2 ? w->sign : 0, x = special(w, i);
                uint64_t opposite = ((infinity ^ x) & w->sign ? 0 : w->sign) + w->infinity;
                check_fma(w, infinity, zero, x, w->quiet);
                check_fma(w, zero, infinity, x, w->quiet);
                if (x % w->sign == 0)
                    continue;
                check_fma(w, infinity, x, opposite, w->quiet);
                check_fma(w, x, infinity, opposite, w->quiet);
            }
}

/* What the C library gives, any NaN as the quiet one. */
static void check_values(const struct width *w, uint64_t a, uint64_t b, uint64_t c)
{
    uint64_t sum = w->fma_of_c(a, b, c), size = w->size_of_c(a);
    check_fma(w, a, b, c, is_nan(w, sum) ? w->quiet : sum);
    check(w->size_name, w->size(a), is_nan(w, a) ? w->quiet : size, a, 0, 0);
}

static uint64_t any(const struct width *w)
{
    return drawn() & (w->sign | (w->sign - 1));
}

/* A number of random digits with an exponent near one's, so that both terms of a sum count. */
static uint64_t middling(const struct width *w)
{
    uint64_t one = w->infinity / 2 & w->infinity;
    uint64_t n = drawn();
    return (n & w->sign) + one + (n >> 7) % 32 * hidden(w) - 16 * hidden(w) + (n >> 12) % hidden(w);
}

static void values(void)
{
    group("float: fma and size against the C library");
    for (const struct width *w = widths; w < widths + 2; w++) {
        for (int i = 0; i < SPECIAL * SPECIAL * SPECIAL; i++)
            check_values(w, special(w, i % SPECIAL), special(w, i / SPECIAL % SPECIAL),
                         special(w, i / SPECIAL / SPECIAL));
        for (int i = 0; i < RANDOM; i++) {
            uint64_t a = middling(w), b = middling(w), c = middling(w);
            check_values(w, a, b, c);
            /* the product's own rounding taken off: nothing but its error is left */
            check_values(w, a, b, w->fma_of_c(a, b, w->sign) ^ w->sign);
            check_values(w, any(w), b, any(w));
        }
    }
}

/* A whole number below 2^64 that was truncated from a float has at most 24 digits, so double holds it. */
static hoofglaze_truncation truncated_by_processor(float x)
{
    if (!(x > -1 && x < 0x1p64f))
        return (hoofglaze_truncation){x > 0 ? UINT64_MAX : 0, HOOFGLAZE_CUT};
    uint64_t whole = (uint64_t)x;
    return (hoofglaze_truncation){whole, (double)whole == (double)x ? HOOFGLAZE_EXACT : HOOFGLAZE_CUT};
}

static void casts_of_single(uint32_t n)
{
    float x = float_of(n);
    uint32_t bits = x == x ? n : QUIET32;
    check_truncated(n, truncated_by_processor(x));
    check("widened", bytes64(hoofglaze_widened(x)), x == x ? bytes64((double)x) : QUIET64, n, 0, 0);
    check("bits32", hoofglaze_bits32(x), bits, n, 0, 0);
    check("from_bits32", bytes32(hoofglaze_from_bits32(n)), bits, n, 0, 0);
}

static void casts_of_wide(uint64_t n)
{
    double x = double_of(n);
    uint64_t bits = x == x ? n : QUIET64;
    check("narrowed", bytes32(hoofglaze_narrowed(x)), x == x ? bytes32((float)x) : QUIET32, n, 0, 0);
    check("bits64", hoofglaze_bits64(x), bits, n, 0, 0);
    check("from_bits64", bytes64(hoofglaze_from_bits64(n)), bits, n, 0, 0);
}

/* Halfway between two floats, and the doubles on either side. */
static void near_tie(uint32_t n)
{
    uint64_t tie = bytes64((double)float_of(n)) + 0x10000000;
    casts_of_wide(tie - 1);
    casts_of_wide(tie);
    casts_of_wide(tie + 1);
}

static void casts(void)
{
    group("float: casts and bits against the processor");
    for (int i = 0; i < SPECIAL; i++) {
        casts_of_single(special(single, i));
        casts_of_wide(special(wide, i));
        near_tie(special(single, i));
    }
    for (int i = 0; i < RANDOM; i++) {
        casts_of_single(any(single));
        casts_of_single(0x3f000000 + drawn() % 0x21000000);
        casts_of_wide(any(wide));
        casts_of_wide(0x3680000000000000 + drawn() % 0x1170000000000000);
        near_tie(any(single) & ~0x40000000u);
    }
}

void float_checks(void)
{
    table();
    nan_operands();
    invalid_operations();
    values();
    casts();
}
