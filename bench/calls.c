/* calls WHOSE FUNCTION OPERANDS: calls one function many times, for an instruction counter. calls nanoseconds:
 * how long a call takes, a line for each that offers a function and each row of its operands. calls agree:
 * whether the library, its rendering, the C library and musl give the same numbers. */
#include "clock.h"

#include <math.h>
#include <stdio.h>
#include <string.h>

#include "hoofglaze.h"
#include "operands.h"
#include "rendering.h"
#ifdef MUSL
#include "musl.h"
#endif

enum { ROUNDS = 8, TURNS = 200 };

/* ---- who offers the functions */

struct offer {
    const char *whose;
    float (*fma32)(float a, float b, float c);
    double (*fma64)(double a, double b, double c);
    float (*root32)(float x);
    float (*size32)(float x);
    double (*size64)(double x);
    hoofglaze_truncation (*truncated)(float x);
    float (*narrowed)(double x);
};

/* A function of each signature that does nothing but return. */
__asm__(".text\n.globl nothing\nnothing:\n\tret\n");
float nothing_fma32(float a, float b, float c) __asm__("nothing");
double nothing_fma64(double a, double b, double c) __asm__("nothing");
float nothing_root32(float x) __asm__("nothing");
float nothing_size32(float x) __asm__("nothing");
double nothing_size64(double x) __asm__("nothing");
hoofglaze_truncation nothing_truncated(float x) __asm__("nothing");
float nothing_narrowed(double x) __asm__("nothing");

static const struct offer offers[] = {
    {"nothing", nothing_fma32, nothing_fma64, nothing_root32, nothing_size32, nothing_size64,
     nothing_truncated, nothing_narrowed},
    {"hoofglaze", hoofglaze_fma32, hoofglaze_fma64, hoofglaze_root32, hoofglaze_size32, hoofglaze_size64,
     hoofglaze_truncated, hoofglaze_narrowed},
    {"rendering", rendered_fma32, rendered_fma64, rendered_root32, rendered_size32, rendered_size64,
     rendered_truncated, rendered_narrowed},
    {"libm", fmaf, fma, sqrtf, 0, 0, 0, 0},
#ifdef MUSL
    {"musl", musl_fmaf, musl_fma, 0, 0, 0, 0, 0},
#endif
};

enum { OFFERS = sizeof offers / sizeof *offers };

static const struct offer *const library = &offers[1];

/* ---- calls */

enum function { FMA32, FMA64, ROOT32, SIZE32, SIZE64, TRUNCATED, NARROWED, FUNCTIONS };

static const char *const functions[FUNCTIONS] = {
    "fma32", "fma64", "root32", "size32", "size64", "truncated", "narrowed",
};

#define CALLS(FUNCTION, ...)                                    \
    for (int round = 0; o->FUNCTION && round < rounds; round++) \
        for (int i = 0; i < PREPARED; i++)                      \
            o->FUNCTION(__VA_ARGS__);                           \
    return o->FUNCTION != 0

/* Whether the function is offered, and so was called. */
static int call(const struct offer *o, enum function function, int rounds)
{
    switch (function) {
    case FMA32:
        CALLS(fma32, a32[i], b32[i], c32[i]);
    case FMA64:
        CALLS(fma64, a64[i], b64[i], c64[i]);
    case ROOT32:
        CALLS(root32, squares[i]);
    case SIZE32:
        CALLS(size32, a32[i]);
    case SIZE64:
        CALLS(size64, a64[i]);
    case TRUNCATED:
        CALLS(truncated, a32[i]);
    case NARROWED:
        CALLS(narrowed, a64[i]);
    default:
        return 0;
    }
}

/* ---- nanoseconds, with the loop around the call: the quickest of some turns, which all but the one that does
 * nothing take by rotation, and of which the first only warms up */

static void time_row(enum function function, enum row row)
{
    double least[OFFERS] = {0};
    prepare(row);
    for (int turn = 0; turn <= TURNS; turn++)
        for (int i = 1; i < OFFERS; i++) {
            double began = now();
            int offered = call(&offers[i], function, 1);
            double took = offered ? (now() - began) / PREPARED : 0;
            least[i] = turn <= 1 || took < least[i] ? took : least[i];
        }
    for (int i = 1; i < OFFERS; i++)
        if (least[i] > 0)
            printf("%s %s %s %.2f\n", offers[i].whose, functions[function], rows[row], least[i]);
}

static int nanoseconds(void)
{
    for (enum function function = FMA32; function < FUNCTIONS; function++)
        for (enum row row = RANDOM; row < ROWS; row++)
            if (function <= FMA64 || row == RANDOM || (function == ROOT32 && (row == SPREAD || row == SUBNORMAL)))
                time_row(function, row);
    return 0;
}

/* ---- agreement */

static int same(double x, double y)
{
    return memcmp(&x, &y, sizeof x) == 0 || (x != x && y != y);
}

/* Whether someone gives the library's numbers, where they offer the function. */
#define AGREES(FUNCTION, ...) (!o->FUNCTION || same(library->FUNCTION(__VA_ARGS__), o->FUNCTION(__VA_ARGS__)))

static int truncates_alike(const struct offer *o, float x)
{
    if (!o->truncated)
        return 1;
    hoofglaze_truncation ours = library->truncated(x), theirs = o->truncated(x);
    return ours.whole == theirs.whole && ours.word == theirs.word;
}

static int agrees(const struct offer *o, int i)
{
    return AGREES(fma32, a32[i], b32[i], c32[i]) && AGREES(fma64, a64[i], b64[i], c64[i]) &&
           AGREES(root32, squares[i]) && AGREES(size32, a32[i]) && AGREES(size64, a64[i]) &&
           truncates_alike(o, a32[i]) && AGREES(narrowed, a64[i]);
}

static int agree(void)
{
    int differ = 0;
    for (enum row row = RANDOM; row < ROWS; row++) {
        prepare(row);
        for (const struct offer *o = library + 1; o < offers + OFFERS; o++) {
            int apart = 0;
            for (int i = 0; i < PREPARED; i++)
                apart += !agrees(o, i);
            if (apart)
                printf("%s, %s: %d differ\n", o->whose, rows[row], apart);
            differ += apart;
        }
    }
    printf("calls: %d operands on which the functions differ\n", differ);
    return differ != 0;
}

/* ---- words */

/* How many there are where none is it. */
static int found(const char *word, const char *const *words, int count)
{
    int i = 0;
    while (i < count && strcmp(word, words[i]) != 0)
        i++;
    return i;
}

static int call_row(const char *whose, const char *function, const char *operands)
{
    int f = found(function, functions, FUNCTIONS), row = found(operands, rows, ROWS);
    if (f == FUNCTIONS || row == ROWS)
        return 2;
    for (const struct offer *o = offers; o < offers + OFFERS; o++)
        if (strcmp(whose, o->whose) == 0) {
            prepare(row);
            return call(o, f, ROUNDS) ? 0 : 2;
        }
    return 2;
}

int main(int count, char **words)
{
    if (count == 2 && strcmp(words[1], "agree") == 0)
        return agree();
    if (count == 2 && strcmp(words[1], "nanoseconds") == 0)
        return nanoseconds();
    return count == 4 ? call_row(words[1], words[2], words[3]) : 2;
}
