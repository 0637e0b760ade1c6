/* What the checks of the equaliser share: an equaliser as a stage, and numbers of bands. */
#ifndef EQ_H
#define EQ_H

#include "stage.h"

enum { BANDS = 16, SETTINGS = 1 + 6 * BANDS, REGISTERS = 4 * BANDS };

/* The numbers of a state: the rate; dB, b0, b1, b2, a1, a2 of each band; x1, x2, y1, y2 of each. */
extern const struct stage equaliser;

extern const hoofglaze_eq_numbers unity, plain;

/* Whether a value is too small to be used. */
int is_unity(float value);

/* A filter with two poles inside the circle. */
hoofglaze_eq_numbers drawn_numbers(void);

hoofglaze_answer eq_set(hoofglaze_eq *e, const char *name, size_t bytes, float value,
                             hoofglaze_eq_numbers worked);
hoofglaze_answer eq_set_band(hoofglaze_eq *e, size_t band, float value, hoofglaze_eq_numbers worked);

#endif
