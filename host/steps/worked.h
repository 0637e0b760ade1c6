/* Worked numbers of times and corners, as the Rust works them out, in double. */
#ifndef STEPS_WORKED_H
#define STEPS_WORKED_H

#include <math.h>

/* The smoothing number of a time in milliseconds. */
static inline float smoothing(double rate, double ms)
{
    return (float)exp(-1 / (rate * 0.001 * ms));
}

/* A DC blocker's number for a corner in Hz. */
static inline float blocking(double rate, double corner)
{
    return (float)exp(-2 * 3.14159265358979323846 * corner / rate);
}

#endif
