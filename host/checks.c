/* What every check uses: groups, counts, and bits that matter. */
#include "checks.h"

#include <stdio.h>

enum { SHOWN = 5 };

static const char *name;
static unsigned long checks, failed, checks_before, failed_before;

static void close_group(void)
{
    if (name)
        printf("%s: %lu checks, %lu failed\n", name, checks - checks_before, failed - failed_before);
}

void group(const char *next)
{
    close_group();
    name = next;
    checks_before = checks;
    failed_before = failed;
}

void check(const char *call, uint64_t given, uint64_t expected, uint64_t a, uint64_t b, uint64_t c)
{
    checks++;
    if (given == expected)
        return;
    failed++;
    if (failed - failed_before <= SHOWN)
        printf("  %s of %lx, %lx, %lx gives %lx, not %lx\n", call, a, b, c, given, expected);
}

uint64_t drawn(void)
{
    static uint64_t state = 0x9e3779b97f4a7c15;
    state ^= state << 13;
    state ^= state >> 7;
    state ^= state << 17;
    return state * 0x2545f4914f6cdd1d;
}

/* The lowest digit of the exponent: what a normal number's significand has above its fraction. */
static uint64_t hidden(uint64_t infinity)
{
    return infinity & -infinity;
}

uint64_t special_bits(uint64_t sign, uint64_t infinity, int i)
{
    uint64_t one = infinity / 2 & infinity;
    uint64_t sizes[SPECIAL / 2] = {0, 1, hidden(infinity) - 1, hidden(infinity), one, one + 1,
                                   infinity - 1, infinity};
    return sizes[i / 2] + (i % 2 ? sign : 0);
}

uint64_t nan_bits(uint64_t sign, uint64_t infinity, int i)
{
    uint64_t highest = hidden(infinity) / 2, digit = (uint64_t)1 << (i / 2 % 64);
    uint64_t fraction = digit <= highest       ? digit
                        : digit == highest * 2 ? highest * 2 - 1
                        : digit == highest * 4 ? highest - 1
                                               : drawn() % (hidden(infinity) - 1) + 1;
    return (i % 2 ? sign : 0) + infinity + fraction;
}

int all_passed(void)
{
    close_group();
    printf("host: %lu checks, %lu failed\n", checks, failed);
    return checks > 0 && failed == 0;
}
