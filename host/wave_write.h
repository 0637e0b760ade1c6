/* What the checks of recordings that are written share: the limit, rates, and an answer and bytes held to what
 * they must be. */
#ifndef WAVE_WRITE_H
#define WAVE_WRITE_H

#include "wave.h"

typedef hoofglaze_written (*writer)(uint32_t rate, const uint8_t *samples, size_t bytes, uint8_t *output,
                                    size_t room);

/* The most bytes of samples that can be written. */
enum { MOST_RECORDED = 1048576 };

/* Rates that are accepted and rates that are refused, at both limits and around powers of two. */
enum { RATES_WRITTEN = 16, RATES_REFUSED = 12 };
extern const uint32_t rates_written[RATES_WRITTEN], rates_refused[RATES_REFUSED];

/* The two numbers of an answer; the operands are for the message. */
void check_written(const char *call, hoofglaze_written given, hoofglaze_written said, uint64_t a, uint64_t b);

/* How many bytes are the same before the first that isn't: all, if none. */
size_t same_bytes(const uint8_t *given, const uint8_t *said, size_t bytes);

void large_write_checks(void);
void large_head_checks(void);
void again_checks(void);

#endif
