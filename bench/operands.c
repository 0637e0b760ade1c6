#include "operands.h"

#include "floats.h"

float a32[PREPARED], b32[PREPARED], c32[PREPARED];
double a64[PREPARED], b64[PREPARED], c64[PREPARED];
float squares[PREPARED];

const char *const rows[ROWS] = {
    "random",         "spread",           "c-zero",     "a-zero",  "zeros",        "subnormal",  "far", "nan",
    "zero-subnormal", "subnormal-result", "top-result", "halfway", "halfway-lost", "c-infinity",
    "c-zero-subnormal",
};

/* ---- numbers */

static uint64_t drawn(void)
{
    static uint64_t state = 0x9e3779b97f4a7c15;
    state ^= state << 13;
    state ^= state >> 7;
    state ^= state << 17;
    return state * 0x2545f4914f6cdd1d;
}

/* A normal number from 2^from up to 2^(from + span), of either sign. */
static double normal(int from, int span)
{
    uint64_t n = drawn() & 0x800fffffffffffff;
    return double_of(n + ((uint64_t)(1023 + from + (int)(drawn() % span)) << 52));
}

/* From 2^from up to 1.25 * 2^from, of either sign. */
static double low(int from)
{
    return double_of(bytes64(normal(from, 1)) & ~((uint64_t)3 << 50));
}

/* An odd whole number of so many digits, the first two of them ones, of either sign. */
static double odd(int digits)
{
    uint64_t top = (uint64_t)3 << (digits - 2), n = drawn();
    double size = (double)(n % (top / 3) | top | 1);
    return n >> 63 ? -size : size;
}

static double with_sign_of(double x, double size)
{
    return __builtin_copysign(size, x);
}

/* ---- operands */

static void put(int place, int i, float x, double y)
{
    float *const at32[] = {a32, b32, c32};
    double *const at64[] = {a64, b64, c64};
    at32[place][i] = x;
    at64[place][i] = y;
}

static void put_subnormal(int place, int i)
{
    float x = (float)normal(-140, 8);
    put(place, i, x, normal(-550, 8) * 0x1p-500);
}

static void put_far(int place, int i)
{
    float x = (float)normal(i % 2 ? 60 : -60, 8);
    put(place, i, x, normal(i % 2 ? 300 : -300, 8));
}

/* A product from 4^half up to 1.6 * 4^half, and a c from 4^half up to twice that, with its sign or the other. */
static void put_sum(int i, int half32, int half64, int sign)
{
    a32[i] = (float)low(half32), b32[i] = (float)low(half32);
    c32[i] = (float)with_sign_of(sign * (double)a32[i] * b32[i], normal(2 * half32, 1));
    a64[i] = low(half64), b64[i] = low(half64);
    c64[i] = with_sign_of(sign * a64[i] * b64[i], normal(2 * half64, 1));
}

/* A c from 1.25 up to 1.75, and a product below a quarter that is an odd number of halves of c's last digit. */
static void put_halfway(int i)
{
    double c = low(0);
    c = 2 * c - with_sign_of(c, 0.75);
    put(2, i, (float)c, c);
    a32[i] = (float)odd(11) * 0x1p-12f, b32[i] = (float)odd(11) * 0x1p-12f;
    a64[i] = odd(25) * 0x1p-26, b64[i] = odd(25) * 0x1p-27;
}

/* A c from 1 up to 2, and a product that is nearly half of its last digit, d: (1 + k * d) * (1 - (k - 1) * d) of
 * that half, or 1 + d - k * (k - 1) * d^2. A k near the root of 1 / d leaves so little of d that a sum of 53
 * digits for f32, and of 106 for f64, is exactly halfway. */
static void put_product_lost(int i)
{
    double c = normal(0, 1), k = 2875 + (double)(drawn() % 45), l = 0x1p26 - 15 + (double)(drawn() % 32);
    a32[i] = (float)with_sign_of(normal(0, 1), 1 + k * 0x1p-23) * 0x1p-12f;
    b32[i] = (float)(1 - (k - 1) * 0x1p-23) * 0x1p-12f;
    a64[i] = with_sign_of(normal(0, 1), 1 + l * 0x1p-52) * 0x1p-26;
    b64[i] = (1 - (l - 1) * 0x1p-52) * 0x1p-27;
    put(2, i, (float)c, c);
}

/* A product of one digit more than the type has, and a c so small that such a sum loses it. */
static void put_c_lost(int i)
{
    float c = (float)normal(-64, 8);
    put(2, i, c, normal(-300, 8));
    a32[i] = (float)odd(12) * 0x1p-12f, b32[i] = (float)odd(13) * 0x1p-12f;
    a64[i] = odd(27) * 0x1p-26, b64[i] = odd(27) * 0x1p-27;
}

/* What a row has that random normal numbers haven't. */
static void put_row(enum row row, int i)
{
    if (row == A_ZERO || row == ZEROS || row == A_ZERO_C_SUBNORMAL)
        put(0, i, 0, 0);
    if (row == ZEROS)
        put(1, i, 0, 0);
    if (row == C_ZERO || row == ZEROS || row == C_ZERO_SUBNORMAL_RESULT)
        put(2, i, 0, 0);
    if (row == SUBNORMAL)
        put_subnormal(i % 3, i);
    if (row == A_ZERO_C_SUBNORMAL)
        put_subnormal(2, i);
    if (row == C_ZERO_SUBNORMAL_RESULT)
        put_subnormal(1, i);
    if (row == FAR)
        put_far(2, i);
    if (row == NOT_A_NUMBER)
        put(i % 3, i, 0.0f / 0.0f, 0.0 / 0.0);
    if (row == C_INFINITY)
        put(2, i, i % 2 ? __builtin_inff() : -__builtin_inff(), i % 2 ? __builtin_inf() : -__builtin_inf());
    if (row == SUBNORMAL_RESULT)
        put_sum(i, -63, -511, -1);
    if (row == TOP_RESULT)
        put_sum(i, 63, 511, 1);
    if (row == HALFWAY)
        put_halfway(i);
    if (row == HALFWAY_LOST)
        (i % 2 ? put_c_lost : put_product_lost)(i);
}

void prepare(enum row row)
{
    for (int i = 0; i < PREPARED; i++) {
        for (int place = 0; place < 3; place++) {
            double x = row == SPREAD ? normal(-16, 32) : normal(-4, 8);
            put(place, i, (float)x, x);
        }
        put_row(row, i);
    }
    for (int i = 0; i < PREPARED; i++)
        squares[i] = __builtin_fabsf(row == SUBNORMAL ? (float)normal(-140, 8) : a32[i]);
}
