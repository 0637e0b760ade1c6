/* The gate's and the equaliser's settings: their names, units and ranges, and their worked numbers. */
#ifndef SESSION_SETTINGS_H
#define SESSION_SETTINGS_H

#include "session.h"

enum unit { DECIBELS, TIME, PLAIN };

struct setting {
    const char *name; /* the library's, and the option's */
    enum unit unit;
    const char *range;
    float usual;
};

extern const struct setting settings[SETTINGS];

/* Whether the library takes such a value. */
int takes_value(int setting, float value);

/* Whether it takes such a value of a band. */
int takes_band(float decibels);

/* The index of the band of that name, or -1. */
int band_named(const char *name, size_t bytes);

/* In Hz. */
int centre(int band);

/* Makes the run's gate and sets it to the run's values. */
void set_gate(struct run *r, uint32_t rate);
hoofglaze_eq equaliser_with(const struct equaliser *e, uint32_t rate);

/* What the library says of a hold in samples: exact or cut. */
const char *hold_word(hoofglaze_truncation hold);
int is_cut(hoofglaze_truncation hold);

/* What cut means. */
extern const char cut_means[];

/* Writes the run's hold, as hold 50 ms (2,400 samples, exact): no word without its samples. */
void write_hold(FILE *to, const struct run *r);

/* The unit that stands behind a value: " dB", " ms" or nothing. */
const char *unit_words(enum unit unit);

#endif
