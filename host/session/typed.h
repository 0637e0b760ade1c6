/* Numbers with their units, as they are typed. */
#ifndef SESSION_TYPED_H
#define SESSION_TYPED_H

#include "settings.h"

/* Reads a number with its unit, or without one where it may go without, from so many bytes of text; times are
 * given in ms. Gives 0 where they are no such number. */
int typed(const char *text, size_t bytes, enum unit unit, int needs_unit, float *value);

#endif
