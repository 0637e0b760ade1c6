/* The settings that the rows of the table run with. */
#include "hoofglaze.h"

enum { RATE = 48000 };

hoofglaze_gate a_gate(void);
hoofglaze_eq an_equaliser(void);
hoofglaze_tone a_tone_stack(void);
hoofglaze_saturator a_saturator(void);
hoofglaze_leveller a_leveller(float ratio);
