/* A block through a noise gate, as a host does it: every call's answer is looked at. */
#include <math.h>
#include <stdio.h>

#include "hoofglaze.h"

enum { RATE = 48000, SAMPLES = 6 };

int main(void)
{
    const float input[SAMPLES] = {0, 0.005f, -0.005f, 0.5f, -0.25f, 0.005f};
    float output[SAMPLES];
    /* The follower's two numbers, of 0.1 ms and 10 ms: exp(-1 / (rate * 0.001 * ms)). */
    hoofglaze_gate_answered made = hoofglaze_gate_make(RATE, exp(-1 / 4.8), exp(-1 / 480.0));
    hoofglaze_gate gate = made.gate;
    /* -40 dB, and beside it the factor 10^(-40 / 20). */
    hoofglaze_answer set = hoofglaze_gate_set_in_place(&gate, (const uint8_t *)"threshold", 9, -40, 0.01f);
    hoofglaze_answer block = hoofglaze_gate_block_in_place(&gate, input, SAMPLES, output, SAMPLES);
    printf("answers: %u, %u, %u\n", made.answer.number, set.number, block.number);
    printf("aimed open at %zu of %d samples\n", block.count, SAMPLES);
    for (int i = 0; block.number == 0 && i < SAMPLES; i++)
        printf("%7.4f -> %7.4f\n", input[i], output[i]);
    return block.number != 0;
}
