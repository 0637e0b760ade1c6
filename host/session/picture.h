/* The picture of a session. */
#ifndef SESSION_PICTURE_H
#define SESSION_PICTURE_H

#include "session.h"

/* How many samples a block has at most, for a picture of so many: 16 readings of the level a column. */
uint64_t picture_block(uint64_t samples);

void picture_begins(const struct session *s);

/* A block that was heard, what the gate made of it, and its level behind it. */
void picture_hears(uint64_t at, size_t samples, const float *input, const float *gated, float level);

void picture_span(const struct span *p);
void picture_ends(const struct session *s);

#endif
