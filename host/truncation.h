/* Truncation's check, of both numbers that it gives. */
#ifndef TRUNCATION_H
#define TRUNCATION_H

#include "hoofglaze.h"

/* The float that has these bits: its whole number, and exact or cut. */
void check_truncated(uint32_t n, hoofglaze_truncation said);

#endif
