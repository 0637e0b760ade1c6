/* Every call of the library, a row each: its name, the most stack that the header says it takes, the bytes
 * of its arguments that lie on the stack, and what it is called with. */
#ifndef STACKS_H
#define STACKS_H

#define GATE_BYTES sizeof(hoofglaze_gate)
#define GATE_BEFORE_BYTES sizeof(hoofglaze_gate_before)
#define GATE_RECORD_BYTES (GATE_BYTES + sizeof(size_t)) /* the aims' length, for which no register is left */
#define EQ_BYTES sizeof(hoofglaze_eq)
#define EQ_SET_BYTES (EQ_BYTES + sizeof(hoofglaze_eq_numbers))
#define TONE_BYTES (sizeof(hoofglaze_tone) + 4)
#define SATURATOR_BYTES (sizeof(hoofglaze_saturator) + 4)
#define CROSSOVER_BYTES sizeof(hoofglaze_saturator_crossover)
#define LEVELLER_BYTES sizeof(hoofglaze_leveller)

#define NAME (const uint8_t *)name, bytes
#define BUFFERS input, samples, output, places

#define SETTINGS(X)                                                                                        \
    X(hoofglaze_fma32, FLOAT, 0, small[0], small[1], small[2])                                             \
    X(hoofglaze_fma64, FLOAT, 0, large[0], large[1], large[2])                                             \
    X(hoofglaze_root32, FLOAT, 0, small[0])                                                                \
    X(hoofglaze_size32, FLOAT, 0, small[0])                                                                \
    X(hoofglaze_size64, FLOAT, 0, large[0])                                                                \
    X(hoofglaze_truncated, FLOAT, 0, small[0])                                                             \
    X(hoofglaze_narrowed, FLOAT, 0, large[0])                                                              \
    X(hoofglaze_widened, FLOAT, 0, small[0])                                                               \
    X(hoofglaze_bits32, FLOAT, 0, small[0])                                                                \
    X(hoofglaze_bits64, FLOAT, 0, large[0])                                                                \
    X(hoofglaze_from_bits32, FLOAT, 0, bytes32(small[0]))                                                  \
    X(hoofglaze_from_bits64, FLOAT, 0, bytes64(large[0]))                                                  \
    X(hoofglaze_follower_make, FLOAT, 0, value, worked)                                                    \
    X(hoofglaze_follower_step, FLOAT, 0, follower, small[0])                                               \
    X(hoofglaze_follower_reset, FLOAT, 0, follower)                                                        \
    X(hoofglaze_blocker_make, FLOAT, 0, worked)                                                            \
    X(hoofglaze_blocker_step, FLOAT, 0, blocker, small[0])                                                 \
    X(hoofglaze_blocker_reset, FLOAT, 0, blocker)                                                          \
    X(hoofglaze_gate_make, GATE, 0, rate, worked, worked)                                                  \
    X(hoofglaze_gate_load, GATE, GATE_BEFORE_BYTES, gate_before)                                           \
    X(hoofglaze_gate_set, GATE, GATE_BYTES, gate, NAME, value, worked)                                     \
    X(hoofglaze_gate_set_threshold, GATE, GATE_BYTES, gate, decibels, factor)                              \
    X(hoofglaze_gate_set_ratio, GATE, GATE_BYTES, gate, value)                                             \
    X(hoofglaze_gate_set_attack, GATE, GATE_BYTES, gate, value, worked)                                    \
    X(hoofglaze_gate_set_release, GATE, GATE_BYTES, gate, value, worked)                                   \
    X(hoofglaze_gate_set_hold, GATE, GATE_BYTES, gate, value)                                              \
    X(hoofglaze_gate_read, GATE, GATE_BYTES, gate, NAME)                                                   \
    X(hoofglaze_gate_reset, GATE, GATE_BYTES, gate)                                                        \
    X(hoofglaze_gate_set_in_place, GATE, 0, &host_gate, NAME, value, worked)                               \
    X(hoofglaze_gate_reset_in_place, GATE, 0, &host_gate)                                                  \
    X(hoofglaze_eq_make, EQ, 0, rate)                                                                      \
    X(hoofglaze_eq_set, EQ, EQ_SET_BYTES, eq, NAME, decibels, numbers)                                     \
    X(hoofglaze_eq_set_band, EQ, EQ_SET_BYTES, eq, band, decibels, numbers)                                \
    X(hoofglaze_eq_read, EQ, EQ_BYTES, eq, NAME)                                                           \
    X(hoofglaze_eq_reset, EQ, EQ_BYTES, eq)                                                                \
    X(hoofglaze_tone_make_modern, TONE, 0, rate)                                                           \
    X(hoofglaze_tone_make_british, TONE, 0, rate)                                                          \
    X(hoofglaze_tone_make_american, TONE, 0, rate)                                                         \
    X(hoofglaze_tone_make_flat, TONE, 0, rate)                                                             \
    X(hoofglaze_tone_set, TONE, TONE_BYTES, tone, NAME, value, worked)                                     \
    X(hoofglaze_tone_set_bass, TONE, TONE_BYTES, tone, value)                                              \
    X(hoofglaze_tone_set_mid, TONE, TONE_BYTES, tone, value)                                               \
    X(hoofglaze_tone_set_treble, TONE, TONE_BYTES, tone, value)                                            \
    X(hoofglaze_tone_set_presence, TONE, TONE_BYTES, tone, value, factor)                                  \
    X(hoofglaze_tone_read, TONE, TONE_BYTES, tone, NAME)                                                   \
    X(hoofglaze_tone_reset, TONE, TONE_BYTES, tone)                                                        \
    X(hoofglaze_saturator_make, SATURATOR, 2 * CROSSOVER_BYTES, rate, crossover, crossover, worked,        \
      worked, worked)                                                                                      \
    X(hoofglaze_saturator_set, SATURATOR, SATURATOR_BYTES + CROSSOVER_BYTES, saturator, NAME,              \
      value, crossover)                                                                                    \
    X(hoofglaze_saturator_set_low_drive, SATURATOR, SATURATOR_BYTES, saturator, value)                     \
    X(hoofglaze_saturator_set_mid_drive, SATURATOR, SATURATOR_BYTES, saturator, value)                     \
    X(hoofglaze_saturator_set_high_drive, SATURATOR, SATURATOR_BYTES, saturator, value)                    \
    X(hoofglaze_saturator_set_low_level, SATURATOR, SATURATOR_BYTES, saturator, value)                     \
    X(hoofglaze_saturator_set_mid_level, SATURATOR, SATURATOR_BYTES, saturator, value)                     \
    X(hoofglaze_saturator_set_high_level, SATURATOR, SATURATOR_BYTES, saturator, value)                    \
    X(hoofglaze_saturator_set_low_freq, SATURATOR, SATURATOR_BYTES + CROSSOVER_BYTES, saturator,           \
      value, crossover)                                                                                    \
    X(hoofglaze_saturator_set_high_freq, SATURATOR, SATURATOR_BYTES + CROSSOVER_BYTES, saturator,          \
      value, crossover)                                                                                    \
    X(hoofglaze_saturator_read, SATURATOR, SATURATOR_BYTES, saturator, NAME)                               \
    X(hoofglaze_saturator_reset, SATURATOR, SATURATOR_BYTES, saturator)                                    \
    X(hoofglaze_leveller_make, LEVELLER, 0, rate, worked, worked)                                          \
    X(hoofglaze_leveller_set, LEVELLER, LEVELLER_BYTES, leveller, NAME, value, worked)                     \
    X(hoofglaze_leveller_set_threshold, LEVELLER, LEVELLER_BYTES, leveller, decibels, factor)              \
    X(hoofglaze_leveller_set_ratio, LEVELLER, LEVELLER_BYTES, leveller, value)                             \
    X(hoofglaze_leveller_set_attack, LEVELLER, LEVELLER_BYTES, leveller, value, worked)                    \
    X(hoofglaze_leveller_set_release, LEVELLER, LEVELLER_BYTES, leveller, value, worked)                   \
    X(hoofglaze_leveller_set_makeup, LEVELLER, LEVELLER_BYTES, leveller, factor)                           \
    X(hoofglaze_leveller_read, LEVELLER, LEVELLER_BYTES, leveller, NAME)                                   \
    X(hoofglaze_leveller_reset, LEVELLER, LEVELLER_BYTES, leveller)

#define BLOCKS(X)                                                                                          \
    X(hoofglaze_gate_block, GATE, GATE_BYTES, gate, BUFFERS)                                               \
    X(hoofglaze_gate_block_in_place, GATE, 0, &host_gate, BUFFERS)                                         \
    X(hoofglaze_gate_record, GATE, GATE_RECORD_BYTES, gate, BUFFERS, aims, aim_bytes)                      \
    X(hoofglaze_clip_hard, CLIP, 0, value, BUFFERS)                                                        \
    X(hoofglaze_clip_triode, CLIP, 0, value, BUFFERS)                                                      \
    X(hoofglaze_eq_block, EQ, EQ_BYTES, eq, BUFFERS)                                                       \
    X(hoofglaze_tone_block, TONE, TONE_BYTES, tone, BUFFERS)                                               \
    X(hoofglaze_saturator_block, SATURATOR, SATURATOR_BYTES, saturator, BUFFERS)                           \
    X(hoofglaze_leveller_block, LEVELLER, LEVELLER_BYTES, leveller, BUFFERS)

#define RECORDINGS(X)                                                                                      \
    X(hoofglaze_wave_read, WAVE, 0, file, file_bytes)                                                      \
    X(hoofglaze_wave_write, WAVE, 0, file_rate, recorded, recorded_bytes, written, written_room)           \
    X(hoofglaze_wave_head, WAVE, 0, file_rate, headed_bytes, written, written_room)

#endif
