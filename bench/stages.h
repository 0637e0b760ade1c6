/* The calls that run samples, and who offers them: the library, or the same steps in C. */
#include "hoofglaze.h"

struct offer {
    hoofglaze_follower_answered (*follower_step)(hoofglaze_follower f, float x);
    hoofglaze_blocker_answered (*blocker_step)(hoofglaze_blocker b, float x);
    hoofglaze_gate_answered (*gate_block)(hoofglaze_gate g, const float *input, size_t samples,
                                          float *output, size_t places);
    hoofglaze_gate_answered (*gate_record)(hoofglaze_gate g, const float *input, size_t samples,
                                           float *output, size_t places, uint8_t *aims, size_t bytes);
    hoofglaze_answer (*clip_hard)(float drive, const float *input, size_t samples, float *output,
                                  size_t places);
    hoofglaze_answer (*clip_triode)(float drive, const float *input, size_t samples, float *output,
                                    size_t places);
    hoofglaze_eq_answered (*eq_block)(hoofglaze_eq e, const float *input, size_t samples, float *output,
                                      size_t places);
    hoofglaze_tone_answered (*tone_block)(hoofglaze_tone t, const float *input, size_t samples,
                                          float *output, size_t places);
    hoofglaze_saturator_answered (*saturator_block)(hoofglaze_saturator s, const float *input,
                                                    size_t samples, float *output, size_t places);
    hoofglaze_leveller_answered (*leveller_block)(hoofglaze_leveller l, const float *input, size_t samples,
                                                  float *output, size_t places);
};

/* In C by the machine's compiler, and by the kit's clang, each over the library's fused multiply-add rendered in
 * C, musl's and the processor's. */
extern const struct offer soft, musl, hardware, kit_soft, kit_musl, kit_hardware;
