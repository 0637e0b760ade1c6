/* What the checks of the saturator share: a saturator as a stage, and its calls by a setting's number. */
#ifndef SATURATOR_H
#define SATURATOR_H

#include "stage.h"

/* The places of a state's numbers: the rate, eight settings, what each frequency carries, the three c,
 * and the registers behind them. */
enum { RATE, SETTING, LOW = 7, HIGH, CROSSOVER, C = CROSSOVER + 20, SETTINGS = C + 3 };

enum { REGISTERS = 57, NAMED = 8 };

struct range {
    const char *name;
    float lowest, highest;
};

extern const struct range ranges[NAMED];
extern const struct stage saturator;

hoofglaze_saturator_crossover drawn_crossover(void);

/* A state whose registers hold odd bits. */
hoofglaze_saturator ringing_saturator(void);

hoofglaze_answer saturator_set(hoofglaze_saturator *s, const char *name, size_t bytes, float value,
                             hoofglaze_saturator_crossover worked);
hoofglaze_answer saturator_set_typed(hoofglaze_saturator *s, int i, float value,
                                     hoofglaze_saturator_crossover worked);

#endif
