/* The gated sound as a WAVE file. */
#ifndef SESSION_SOUND_H
#define SESSION_SOUND_H

#include "session.h"

void sound_begins(struct session *s);

/* The gate's next outputs, which go through the equaliser where one is asked for. */
void sound(struct session *s, const float *gated, size_t samples);

void sound_ends(struct session *s);

#endif
