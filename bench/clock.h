/* How long something took. This is included first, before any header of C's. */
#define _POSIX_C_SOURCE 199309L /* for a clock */
#include <time.h>

/* In nanoseconds. */
static inline double now(void)
{
    struct timespec t;
    clock_gettime(CLOCK_MONOTONIC, &t);
    return 1e9 * (double)t.tv_sec + (double)t.tv_nsec;
}
