/* Answers cases of float arithmetic, and calls on a lone follower or a lone DC blocker. Nothing is kept: each
 * stands for itself. */
#include "replay.h"

static uint64_t float_answer(uint8_t operation, const float x[3], const double u[3], uint64_t bits)
{
    switch (operation) {
    case 1: return bytes32(hoofglaze_fma32(x[0], x[1], x[2]));
    case 2: return bytes64(hoofglaze_fma64(u[0], u[1], u[2]));
    case 3: return bytes32(hoofglaze_narrowed(u[0]));
    case 4: return hoofglaze_truncated(x[0]).whole;
    case 5: return bytes64(hoofglaze_widened(x[0]));
    case 6: return bytes32(hoofglaze_size32(x[0]));
    case 7: return bytes64(hoofglaze_size64(u[0]));
    case 8: return hoofglaze_bits32(hoofglaze_from_bits32((uint32_t)bits));
    case 9: return hoofglaze_bits64(hoofglaze_from_bits64(bits));
    case 10: return bytes32(hoofglaze_root32(x[0]));
    case 11: return hoofglaze_truncated(x[0]).word;
    default: return UINT64_MAX;
    }
}

int float_next(void)
{
    uint8_t call[25];
    float x[3];
    double u[3];
    uint64_t bits[3];
    if (!take(call, sizeof call))
        return 0;
    memcpy(bits, call + 1, sizeof bits);
    for (int i = 0; i < 3; i++) {
        x[i] = float_of((uint32_t)bits[i]);
        u[i] = double_of(bits[i]);
    }
    uint64_t answer = float_answer(call[0], x, u, bits[0]);
    give(&answer, sizeof answer);
    return 1;
}

/* The answer's number and value, and the three numbers of the state. */
static void tell(hoofglaze_answer a, const void *state)
{
    give(&a.number, 4);
    give(&a.value, 4);
    give_floats(state, 3);
}

static void follower(uint32_t kind, hoofglaze_follower f, float x)
{
    hoofglaze_follower_answered a = kind == 1   ? hoofglaze_follower_make(f.attack, f.release)
                                    : kind == 2 ? hoofglaze_follower_step(f, x)
                                                : hoofglaze_follower_reset(f);
    tell(a.answer, &a.follower);
}

static void blocker(uint32_t kind, hoofglaze_blocker b, float x)
{
    hoofglaze_blocker_answered a = kind == 4   ? hoofglaze_blocker_make(b.c)
                                   : kind == 5 ? hoofglaze_blocker_step(b, x)
                                               : hoofglaze_blocker_reset(b);
    tell(a.answer, &a.blocker);
}

int common_next(void)
{
    uint8_t call[20];
    if (!take(call, sizeof call))
        return 0;
    uint32_t kind = word(call, 0);
    float x = number(call, 4), y = number(call, 8), z = number(call, 12), sample = number(call, 16);
    if (1 <= kind && kind <= 3) {
        follower(kind, (hoofglaze_follower){x, y, z}, sample);
    } else if (4 <= kind && kind <= 6) {
        blocker(kind, (hoofglaze_blocker){x, y, z}, sample);
    } else {
        memset(call, 0xff, sizeof call);
        give(call, sizeof call);
    }
    return 1;
}
