/* The same steps as the library's float functions, in C: what they cost without proofs. */
#include "rendering.h"

#include "floats.h"

typedef unsigned __int128 uint128_t;

/* n / 2^i to the nearest whole number, a tie to the even one, for n below 2^63. */
static uint64_t nearest(uint64_t n, unsigned i)
{
    if (i > 63)
        return 0;
    return i ? (n + ((uint64_t)1 << (i - 1)) - 1 + (n >> i & 1)) >> i : n;
}

static uint64_t least(uint64_t a, uint64_t b)
{
    return a < b ? a : b;
}

/* n / 2^s, cut, and odd where something was cut off. */
static uint64_t sticky(uint64_t n, unsigned s)
{
    return s > 63 ? n != 0 : n >> s | ((n & (((uint64_t)1 << s) - 1)) != 0);
}

static uint128_t sticky128(uint128_t n, unsigned s)
{
    return s > 127 ? n != 0 : n >> s | ((n & (((uint128_t)1 << s) - 1)) != 0);
}

/* A finite number's size: m * 2^k units of the smallest. */
struct part {
    uint64_t m;
    unsigned k;
};

static struct part part_of(uint64_t size, unsigned digits)
{
    uint64_t x = size >> digits, t = size & (((uint64_t)1 << digits) - 1);
    return x ? (struct part){((uint64_t)1 << digits) + t, x - 1} : (struct part){t, 0};
}

/* ---- f32 */

/* ±n * 2^e units of 2^-312, rounded; n is below 2^63. */
static float made32(uint32_t sign, uint64_t n, unsigned e)
{
    if (n == 0)
        return float_of(sign);
    unsigned t = __builtin_clzll(n) - 1, k = e - t;
    uint64_t m = n << t;
    uint64_t size = k >= 124 ? ((uint64_t)(k - 124) << 23) + nearest(m, 39) : nearest(m, 163 - k);
    return float_of(sign | (uint32_t)least(size, 0x7f800000));
}

/* Of three finite floats. */
static float whole32(float a, float b, float c)
{
    uint32_t i = bytes32(a), j = bytes32(b), l = bytes32(c);
    uint32_t s = (i ^ j) & 0x80000000, t = l & 0x80000000;
    i &= 0x7fffffff, j &= 0x7fffffff, l &= 0x7fffffff;
    struct part x = part_of(i, 23), y = part_of(j, 23), z = part_of(l, 23);
    uint64_t u = x.m * y.m << 14, v = z.m << 38;
    unsigned e = x.k + y.k, f = z.k + 125;
    if (e < f)
        u = sticky(u, f - e), e = f;
    else
        v = sticky(v, e - f);
    if (s == t)
        return made32(s, u + v, e);
    return u < v ? made32(t, v - u, e) : v < u ? made32(s, u - v, e) : 0;
}

static unsigned exponent64(double x)
{
    return bytes64(x) << 1 >> 53;
}

static const unsigned LEAST = 897, ABOVE = 252;

/* Where no cut of the sum in double, s, serves. Zeros and infinities are exact, and s goes to the even one of two
 * floats where it is halfway between them and lost no digit. */
static float rest32(float a, float b, float c, double s)
{
    uint64_t m = bytes64(s) + ((uint64_t)1 << 28);
    unsigned e = exponent64(s);
    if (e - LEAST <= ABOVE) {
        unsigned x = bytes32(a) >> 23 & 255, y = bytes32(b) >> 23 & 255, z = bytes32(c) >> 23 & 255;
        if (m % ((uint64_t)1 << 29) == 0 && e <= x + y + 775 && e <= z + 925)
            return (float)double_of(m - m % ((uint64_t)1 << 30));
    } else if (bytes64(s) << 1 == 0 || e == 2047) {
        return (float)s;
    }
    return whole32(a, b, c);
}

float rendered_fma32(float a, float b, float c)
{
    if (a != a || b != b || c != c)
        return float_of(QUIET32);
    double p = (double)a * b, s = p + c;
    if (s != s)
        return float_of(QUIET32);
    uint64_t m = bytes64(s) + ((uint64_t)1 << 28);
    unsigned e = exponent64(s);
    if (e - LEAST > ABOVE)
        return p == 0 ? a * b + c : c == 0 ? a * b : rest32(a, b, c, s);
    if (m % ((uint64_t)1 << 29) == 0)
        return rest32(a, b, c, s);
    return (float)double_of(m - m % ((uint64_t)1 << 29));
}

/* ---- f64 */

/* n as one of 63 digits, odd where digits are lost, and how many were cut. */
static struct part top(uint128_t n)
{
    uint64_t high = n >> 64;
    unsigned s = high ? 65u - __builtin_clzll(high) : n >> 63 != 0;
    return (struct part){sticky128(n, s), s};
}

/* ±n * 2^e units of 2^-2166, rounded; n is below 2^125. */
static double made64(uint64_t sign, uint128_t n, unsigned e)
{
    if (n == 0)
        return double_of(sign);
    struct part g = top(n);
    unsigned t = __builtin_clzll(g.m) - 1, k = e + g.k - t;
    uint64_t m = g.m << t;
    uint64_t size =
        k >= 1082 ? ((uint64_t)(k - 1082) << 52) + nearest(m, 10) : nearest(m, 1092 - k);
    return double_of(sign | least(size, 0x7ff0000000000000));
}

static double whole64(double a, double b, double c)
{
    uint64_t i = bytes64(a), j = bytes64(b), l = bytes64(c), sign = (uint64_t)1 << 63;
    uint64_t s = (i ^ j) & sign, t = l & sign;
    i &= ~sign, j &= ~sign, l &= ~sign;
    if (i >= 0x7ff0000000000000 || j >= 0x7ff0000000000000)
        return settled64(a * b + c);
    if (l >= 0x7ff0000000000000)
        return c;
    struct part x = part_of(i, 52), y = part_of(j, 52), z = part_of(l, 52);
    uint128_t u = (uint128_t)x.m * y.m << 18, v = (uint128_t)z.m << 71;
    unsigned e = x.k + y.k, f = z.k + 1021;
    if (e < f)
        u = sticky128(u, f - e), e = f;
    else
        v = sticky128(v, e - f);
    if (s == t)
        return made64(s, u + v, e);
    return u < v ? made64(t, v - u, e) : v < u ? made64(s, u - v, e) : 0;
}

static double normal64(uint64_t sign, uint128_t n, unsigned x)
{
    uint64_t high = n >> 64;
    unsigned t = __builtin_clzll(high) - 1;
    uint64_t m = n << t >> 64, rest = (uint64_t)n << t;
    return double_of(sign | (((uint64_t)(x - 1002 - t) << 52) + nearest(m | (rest != 0), 10)));
}

double rendered_fma64(double a, double b, double c)
{
    if (a == 0 || b == 0)
        return settled64(a * b + c);
    if (c == 0)
        return settled64(a * b);
    if (a != a || b != b || c != c)
        return double_of(QUIET64);
    uint64_t i = bytes64(a), j = bytes64(b), l = bytes64(c), sign = (uint64_t)1 << 63;
    uint64_t hidden = (uint64_t)1 << 52, s = (i ^ j) & sign, t = l & sign;
    unsigned x = i >> 52 & 2047, y = j >> 52 & 2047, z = l >> 52 & 2047, d = x + y - (z + 1003);
    if (z - 62 > 1923 || y - 1 > 2045 || x - 1 > 2045 || d > 60)
        return whole64(a, b, c);
    uint128_t u = (uint128_t)((i & (hidden - 1)) | hidden) * ((j & (hidden - 1)) | hidden);
    uint128_t v = (uint128_t)(sign | l << 11) << (61 - d);
    uint128_t n = s == t ? u + v : u < v ? v - u : u - v;
    if (n >> 64 == 0)
        return whole64(a, b, c);
    return normal64(u < v ? t : s, n, x + y);
}

/* ---- root */

/* About the root of x, less a base: a guess, and two means of it and x divided by it. */
static uint64_t guess(uint32_t x, uint64_t base)
{
    float of = float_of(x), first = float_of((x >> 1) + 0x1fbb6800);
    float second = (first + of / first) * 0.49985f, third = (second + of / second) * 0.5f;
    uint64_t g = (uint64_t)bytes32(third) - base;
    return g > 0x02000000 ? 0x00800000 : g;
}

/* The whole number nearest to the root of n, from q on. */
static uint64_t nearest_root(uint64_t n, uint64_t q)
{
    while (n + q <= q * q)
        q--;
    while (q * q + q < n)
        q++;
    return q;
}

static float subnormal_root(uint64_t x)
{
    unsigned t = __builtin_clzll(x) - 40, odd = t % 2;
    uint64_t m = x << t, g = guess(0x3f000000 + (odd << 23) + (uint32_t)m, 0x3f000000);
    return float_of(((126 - t - odd) / 2 << 23) + (uint32_t)nearest_root(m << (23 + odd), g));
}

static float positive_root(uint64_t x)
{
    if (x < 0x00800000)
        return subnormal_root(x);
    uint64_t k = (x >> 23) - 1, base = (k + 126) / 2 << 23;
    uint64_t n = ((x & 0x007fffff) | 0x00800000) << (23 + k % 2);
    return float_of((uint32_t)(base + nearest_root(n, guess((uint32_t)x, base))));
}

float rendered_root32(float x)
{
    if (x > 0)
        return x < __builtin_inff() ? positive_root(bytes32(x)) : x;
    return x == 0 ? x : float_of(QUIET32);
}

/* ---- casts and size */

float rendered_size32(float x)
{
    return x != x ? float_of(QUIET32) : float_of(bytes32(x) & 0x7fffffff);
}

double rendered_size64(double x)
{
    return x != x ? double_of(QUIET64) : double_of(bytes64(x) & ~((uint64_t)1 << 63));
}

/* From 2^24 on every float is a whole number. */
static uint32_t word_of(float x, uint64_t n)
{
    return n >= 1 << 24 || (float)n == x ? HOOFGLAZE_EXACT : HOOFGLAZE_CUT;
}

hoofglaze_truncation rendered_truncated(float x)
{
    if (!(x > -1))
        return (hoofglaze_truncation){0, HOOFGLAZE_CUT};
    if (!(x < 0x1p64f))
        return (hoofglaze_truncation){UINT64_MAX, HOOFGLAZE_CUT};
    uint64_t n = (uint64_t)x;
    return (hoofglaze_truncation){n, word_of(x, n)};
}

float rendered_narrowed(double x)
{
    return settled((float)x);
}
