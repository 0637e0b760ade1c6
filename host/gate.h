/* What the checks of the gate share: how a call's answer and gate are held to what they must be, settings by
 * their number, and the three forms of a block. */
#ifndef GATE_H
#define GATE_H

#include "stage.h"

enum { SETTINGS = 11, NAMED = 5, HOLD = 4 };

struct named {
    const char *name;
    int place, worked; /* where the value and the worked number are kept; -1 where it takes none */
    float lowest, highest;
};

extern const struct named named[NAMED];

/* A setting's bits, from the rate, 0, to the follower's release number, 10. */
uint32_t setting(const hoofglaze_gate *g, int i);
hoofglaze_gate with_setting(hoofglaze_gate g, int i, uint32_t bits);

void check_gate(const char *call, const hoofglaze_gate *given, const hoofglaze_gate *said);

/* A call that sets no hold; and one that sets it, to what the gate that it must give has. */
void check_told(const char *call, hoofglaze_gate_answered given, uint32_t number, hoofglaze_gate said);
void check_told_hold(const char *call, hoofglaze_gate_answered given, hoofglaze_gate said);

/* H, and whether the product that it is the truncation of had no fraction: by the processor alone. */
hoofglaze_truncation held(float hold, float rate);

hoofglaze_gate made(float rate, float rising, float falling);
hoofglaze_gate_answered set_typed(hoofglaze_gate g, int i, float value, float worked);
hoofglaze_gate_answered set_in_place(hoofglaze_gate g, const char *name, size_t bytes, float value,
                                     float worked);

/* Blocks with a record on a state that 9 refuses. */
void check_record_refused_by_9(hoofglaze_gate g);

/* The threshold set to -12 dB, with a factor of 0.25. */
hoofglaze_gate heard(hoofglaze_gate g);

/* Silence, one sample, and silence again, one by one, with a record and in blocks: a gate whose level is a
 * sample's size aims open at so many, from that sample on. */
void check_holds(hoofglaze_gate g, float loud, size_t open);

/* The calls that run a block: by value, in place, and with a record, whose aims are left below. */
enum { FORMS = 3 };

extern const struct form {
    const char *name;
    hoofglaze_gate_answered (*run)(hoofglaze_gate g, const float *from, size_t n, float *to, size_t m);
} forms[FORMS];

extern uint8_t aims_of_form[ROOM];

/* A block that is done: each form tells that quiet count and leaves it in the gate, and all else that they give
 * is the same. Gives the gate after it. */
hoofglaze_gate check_quiet(hoofglaze_gate g, const float *from, size_t n, uint32_t quiet);

void gate_block_checks(void);

#endif
