/* What the checks of the leveller share: a leveller as a stage, what its settings take, and its calls by a
 * setting's number. */
#ifndef LEVELLER_H
#define LEVELLER_H

#include "stage.h"

/* The places of a state's numbers, the level behind the settings. */
enum { RATE, THRESHOLD, FACTOR, RATIO, ATTACK, RISING, RELEASE, FALLING, MAKEUP, LEVEL };

enum { SETTINGS = LEVEL, REGISTERS = 1, NUMBERS = SETTINGS + REGISTERS, NAMED = 5 };

#define FOUR 0x40800000u
#define LEAST_FACTOR 0x38800000u /* 2^-14 */

struct leveller_setting {
    const char *name;
    int place, worked; /* where the value and the worked number are kept; -1 where it takes none */
};

extern const struct leveller_setting leveller_settings[NAMED];
extern const struct stage leveller;

/* Whether a number may stand at a place of a state. */
int leveller_takes(int place, float x);

/* Smoothing numbers that are accepted, each at an end of what they may be, and the ratios. */
enum { SMOOTHINGS = 5, RATIOS = 3 };
extern const uint32_t good_smoothing[SMOOTHINGS], good_ratio[RATIOS];

hoofglaze_answer leveller_set(hoofglaze_leveller *l, int i, float value, float worked);
hoofglaze_answer leveller_set_typed(hoofglaze_leveller *l, int i, float value, float worked);

void leveller_block_checks(void);
void leveller_lent_checks(void);

#endif
