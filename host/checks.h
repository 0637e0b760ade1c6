/* Checks of what the library's calls give, as raw bits: counted, and reported by group. */
#ifndef CHECKS_H
#define CHECKS_H

#include "floats.h"

/* Begins a group of checks. */
void group(const char *name);

/* Counts one check: what a call gave, and what it must give. The operands are for the message. */
void check(const char *call, uint64_t given, uint64_t expected, uint64_t a, uint64_t b, uint64_t c);

/* The next of a fixed sequence of bits without pattern. */
uint64_t drawn(void);

/* Bits that matter, in a width told by its sign and its infinity: zero, the subnormals' and the normal
 * numbers' ends, one and the next above, infinity; each with both signs. */
enum { SPECIAL = 16, NANS = 128 };
uint64_t special_bits(uint64_t sign, uint64_t infinity, int i);

/* NaNs of both signs: each single digit of the fraction, of which the highest alone makes a quiet
 * one; all of them; all but the highest; any. */
uint64_t nan_bits(uint64_t sign, uint64_t infinity, int i);

/* Ends the last group, and prints the counts: whether there were checks and none failed. */
int all_passed(void);

#endif
