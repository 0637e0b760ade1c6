/* The recording, mapped and found by the library's reader. */
#ifndef SESSION_RECORDING_H
#define SESSION_RECORDING_H

#include "session.h"

/* Opens it; where it can't be, or is refused, that is said in words, and ends the program. */
struct recording recording_of(const char *name);

/* So many samples from one on, each n/32768. Memory behind them is given back. */
void hear(const struct recording *r, uint64_t from, size_t samples, float *to);

/* Ends the program where the file has become shorter: its end was heard as zeros then. */
void heard_whole(const struct recording *r);

/* Where the recording is empty: how many bytes lie behind its samples. */
uint64_t bytes_behind(const struct recording *r);

#endif
