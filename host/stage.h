/* What the checks of stages share: numbers that matter, buffers, and the checks of a stage that is made,
 * set, read, reset and run by value. */
#ifndef STAGE_H
#define STAGE_H

#include <stddef.h>

#include "checks.h"
#include "hoofglaze.h"

#define SIGN 0x80000000u
#define INFINITE 0x7f800000u
#define HALF 0x3f000000u
#define ONE 0x3f800000u
#define TWO 0x40000000u
#define BELOW_ONE 0x3f7fffffu
#define SIXTY_FOUR 0x42800000u
#define ODD_NAN 0xffa12345u

#define COUNT(list) ((int)(sizeof(list) / sizeof(list)[0]))

enum { LONGEST = 4096, ROOM = LONGEST + 1, GOOD_RATES = 7, BAD_RATES = 12, ODD = 5 };

extern const float good_rate[GOOD_RATES];
extern const uint32_t bad_rate[BAD_RATES];

/* NaNs and infinities of an f32. */
extern const uint32_t odd[ODD];

extern float input[ROOM], output[ROOM], expected[ROOM];

/* What the output buffer's samples are before a call. */
uint32_t buffer_bits(size_t i);
void fill_output(void);
void check_untouched(const char *call);

uint32_t between(uint32_t low, uint32_t high);
void quiet_input(void);

/* Stretches of loud, low and silent samples, and the ends of what a sample may be. */
void draw_input(void);

/* An answer that tells no hold and no quiet count. */
void check_answer(const char *call, hoofglaze_answer given, uint32_t number, size_t place, size_t count,
                  uint32_t value);

/* The answer to a gate's hold that was set: it tells this and nothing else. */
void check_hold_answer(const char *call, hoofglaze_answer given, hoofglaze_truncation hold);

/* The answer to a gate's block that was done. */
void check_block_answer(const char *call, hoofglaze_answer given, size_t count, uint32_t quiet);

/* A stage of which the checks below know nothing but its numbers. Calls change the state where it lies. */
struct stage {
    const char *groups[4]; /* what the checks of blocks are called */
    size_t bytes;          /* of a state */
    int settings, registers; /* how many numbers a host sets, and a sample moves */
    int wide;                /* the registers are f64 */
    uint64_t (*number)(const void *state, int i);
    void (*put)(void *state, int i, uint64_t bits);
    hoofglaze_answer (*set)(void *state, const char *name, size_t bytes, float value);
    hoofglaze_answer (*typed)(void *state, int i, float value);
    hoofglaze_answer (*read)(const void *state, const char *name, size_t bytes);
    hoofglaze_answer (*reset)(void *state);
    hoofglaze_answer (*block)(void *state, const float *from, size_t n, float *to, size_t m);
    /* a state that 9 accepts, and document 01's step on it */
    void (*draw)(void *state);
    float (*step)(void *state, float x);
};

enum { LARGEST_STATE = 2048 };

/* A state, as the calls have it. */
typedef union {
    double aligned;
    unsigned char bytes[LARGEST_STATE];
} any_state;

void check_state(const struct stage *s, const char *call, const void *given, const void *said);

/* A call's answer and state. */
void check_call(const struct stage *s, const char *call, hoofglaze_answer answer, const void *given,
                uint32_t number, const void *said);

/* The state with one number more that couldn't have been set or made: every call is refused by 9. */
void check_bad_state(const struct stage *s, const void *state, const char *name);
void check_bad_number(const struct stage *s, const void *state, const char *name, int i, uint64_t bits);

/* A state that 9 accepts: a reset zeroes its registers and nothing else. */
void check_good_number(const struct stage *s, const void *state, int i, uint64_t bits);

/* Names that are no setting: refused by 1 before 3. */
void check_strange_names(const struct stage *s, const char *const *names, int count);

/* Answers of the Rust, or of exact arithmetic, as bits, to ten samples: 1, 0.5, -0.25, 0, -0, 64, -64, 1e-40,
 * 0.75, -0.0001. */
enum { KNOWN = 10 };
void check_known(const struct stage *s, void *state, const uint32_t answers[KNOWN]);

/* A block that is done, against the formulas; what lies behind its output stays. */
void check_done(const struct stage *s, void *state, size_t samples);

/* Blocks of the state that are refused by 7, 8, 6. */
void check_refused_blocks(const struct stage *s, const void *state);

/* Refused blocks, blocks against the formulas, NaNs and infinities in each register, kept states: of a stage
 * whose registers may hold any bits. */
void check_blocks(const struct stage *s);

#endif
