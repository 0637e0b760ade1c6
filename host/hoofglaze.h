/* hoofglaze: what libhoofglaze.a offers a C, C++ or Rust host on x86-64 Linux.
 *
 * Every call takes any numbers at all, and any bits in a state. A pointer must be good for the length
 * beside it; where that is 0 it is never read or written and may be null, as an empty vector's. The
 * buffers of one call, its name and its gate must not overlap. Lengths count samples, and bytes for a
 * recording and for a name, which needs no 0 at its end. The float environment must be the default one, as a
 * program starts with it: a thread that rounds another way, or has subnormals flushed to zero, gets other
 * bits. The library keeps nothing from call to call and allocates nothing: threads may call it at once, each
 * with states and buffers of its own. */
#ifndef HOOFGLAZE_H
#define HOOFGLAZE_H

#include <stddef.h>
#include <stdint.h>

/* Grows by one with each release that a host can tell from the one before; docs/RELEASES.md says how. */
#define HOOFGLAZE_VERSION 11

#ifdef __cplusplus
extern "C" {
#endif

/* ---- Stack
 *
 * How many bytes of stack a call takes at most, its arguments with it; its result lies where the caller has
 * it. What the dynamic linker takes while it binds memcpy, memmove and memset, each at its first call, is not
 * counted: it takes nothing where a program is linked with -z now. */
enum {
    HOOFGLAZE_STACK_FLOAT = 256, /* float arithmetic, follower and DC blocker */
    HOOFGLAZE_STACK_GATE = 1024,
    HOOFGLAZE_STACK_CLIP = 1280,
    HOOFGLAZE_STACK_EQ = 4096,
    HOOFGLAZE_STACK_TONE = 512,
    HOOFGLAZE_STACK_SATURATOR = 2048,
    HOOFGLAZE_STACK_LEVELLER = 512,
    HOOFGLAZE_STACK_WAVE = 256
};

/* ---- Float arithmetic (IEEE 754)
 *
 * Every NaN that a call returns is the quiet NaN 7FC00000 (float) or 7FF8000000000000 (double). */

/* Fused multiply-add: a*b + c as an exact whole number times a power of two, rounded once, to
 * nearest, ties to the even significand, subnormals kept, overflow to infinity. Exact sum zero: the
 * common sign if product and c have the same sign, else +0. Infinity times zero, a sum of opposite
 * infinities and any NaN operand give NaN. */
float hoofglaze_fma32(float a, float b, float c);
double hoofglaze_fma64(double a, double b, double c);

/* The square root: the float nearest to it. No two are equally near. Zeros keep their sign, infinity gives
 * infinity; NaN and what is below zero give NaN. */
float hoofglaze_root32(float x);

/* The size of a number: x without its sign, so -0 gives +0. */
float hoofglaze_size32(float x);
double hoofglaze_size64(double x);

/* Whether anything was thrown away: exact where the whole number given back equals the number taken, so of
 * -0 too; else cut: a fraction, a negative number, NaN, or 2^64 and more. Where a call tells a word, 0 is
 * none. */
enum { HOOFGLAZE_EXACT = 1, HOOFGLAZE_CUT = 2 };

typedef struct {
    uint64_t whole;
    uint32_t word; /* HOOFGLAZE_EXACT or HOOFGLAZE_CUT */
} hoofglaze_truncation;

/* Truncation to a whole number, toward zero; NaN and negatives give 0; at most 2^64-1. */
hoofglaze_truncation hoofglaze_truncated(float x);

/* f64 to f32, rounded once, to nearest, ties to the even significand, subnormals kept, overflow to
 * infinity. */
float hoofglaze_narrowed(double x);

/* f32 to f64: the same number. */
double hoofglaze_widened(float x);

/* The bits of a number; any NaN's are 7FC00000 or 7FF8000000000000. */
uint32_t hoofglaze_bits32(float x);
uint64_t hoofglaze_bits64(double x);

/* The number that has these bits; the quiet NaN where they are any NaN's. */
float hoofglaze_from_bits32(uint32_t n);
double hoofglaze_from_bits64(uint64_t n);

/* ---- What every stage answers
 *
 * A setting, step, reset or block by value gives back the state to go on with: the one that it was given,
 * where it is refused.
 *
 * 0 done
 * 1 the name is no setting of this stage
 * 2 band index read and above 15
 * 3 value outside its range, or NaN
 * 4 a worked number isn't acceptable
 * 5 sample rate isn't a whole number from 8,000 to 192,000
 * 6 a sample is NaN, infinite or larger in size than 64; carries the place of the first that is refused
 * 7 a call's buffers differ in length
 * 8 block longer than 4,096 samples
 * 9 a state's settings, rate or worked numbers couldn't have been set or made, or the gate's level,
 *   state or counter or the leveller's level is out of bounds
 *
 * Where a call's comment has numbers in a row, as 9, 1, 3, 4, it is tested for these refusals in this
 * order and the first that holds is its answer; it is refused by no other.
 *
 * No refusal changes a state or an output buffer, not a bit of it. Every NaN that a call works out, reads
 * or takes is the quiet NaN 7FC00000 (double: 7FF8000000000000): each value, each sample of an output, each
 * register that a sample's step writes. What a call leaves as it was it hands back bit for bit, a host's
 * odd NaN too: a refusal the whole state, a setting every register and number that it doesn't change, reset
 * the settings, an empty block all of it. A host may keep a state's numbers and hand them back.
 *
 * A signal may be cut into blocks anywhere: where every block is done, its outputs, the last state and the
 * sum of the counts are the same, in every stage. */
typedef struct {
    uint32_t number;  /* 0 done, or what it is refused by */
    float value;      /* what a call read or stepped to; +0 where it does neither, or was refused */
    size_t place;     /* that of the first sample that is refused (6), from 0; else 0 */
    size_t count;     /* how many samples of a done block were aimed open; else 0 */
    uint64_t samples; /* H, the hold in samples, of a gate's hold that was set; else 0 */
    uint32_t word;    /* of that H: HOOFGLAZE_EXACT or HOOFGLAZE_CUT; else 0 */
    uint32_t quiet;   /* the quiet count after the last sample of a gate's done block; else 0 */
} hoofglaze_answer;

/* ---- Worked numbers
 *
 * What the Rust works out with sin, exp and powf, a host gives beside the value that its user set. They
 * are checked for their range only, not against that value. The Rust takes
 *
 *   for a time in ms, the smoothing number exp(-1 / (rate * 0.001 * ms)); a gate's follower has 0.1 ms
 *   (rising) and 10 ms (falling), a saturator's three followers have 1 ms (attack) and 50 ms (release), a
 *   leveller's has the attack and the release that are set, 1 ms and 100 ms as it is made;
 *   for a DC blocker's corner in Hz, exp(-2 pi * corner / rate); a saturator's three have 15 Hz;
 *   for a threshold in dB, the factor 10^(dB / 20); a leveller's makeup is such a factor itself, of its dB,
 *   and has no worked number;
 *   for a presence, the factor 10^((presence - 1) * 6 / 20);
 *   for a band of an equaliser, the Audio EQ Cookbook's peaking filter of 10/16 octave, in double: f is
 *   the band's centre, held to at most 0.499 * rate; w = 2 pi * f / rate; A = 10^(dB / 40); alpha =
 *   sin(w) * sinh(ln(2)/2 * 10/16 * w / sin(w)); a0 = 1 + alpha/A; b0 = (1 + alpha*A) / a0, b1 =
 *   -2 cos(w) / a0, b2 = (1 - alpha*A) / a0, a1 = -2 cos(w) / a0, a2 = (1 - alpha/A) / a0;
 *   for a frequency f of a saturator, two filters of Q = 1/sqrt(2): w = 2 pi * f / rate; alpha =
 *   sin(w) / (2 Q); a0 = 1 + alpha; a1 = -2 cos(w) / a0, a2 = (1 - alpha) / a0 for both; low-pass b0 = b2
 *   = (1 - cos(w)) / 2 / a0, b1 = (1 - cos(w)) / a0; high-pass b0 = b2 = (1 + cos(w)) / 2 / a0, b1 =
 *   -(1 + cos(w)) / a0. */

/* ---- Follower and DC blocker, one sample at a time
 *
 * c (attack, release) are worked numbers from 0 up to but excluding 1. Making refuses a bad c by 4 and
 * then gives a state whose c are 1; a step or reset on a state with a bad c is refused by 9. Samples and
 * registers may hold any bits. Making gives level, x1 and y1 0; its value, and a reset's, is +0. */

typedef struct {
    float attack, release;
    float level;
} hoofglaze_follower;

typedef struct {
    hoofglaze_follower follower;
    hoofglaze_answer answer;
} hoofglaze_follower_answered;

/* A step: r is the size of x; c is the attack number if r > level, else the release number; new level =
 * fma(c, level, (1-c)*r), which is also the value. Reset zeroes the level. */
hoofglaze_follower_answered hoofglaze_follower_make(float attack, float release);
hoofglaze_follower_answered hoofglaze_follower_step(hoofglaze_follower f, float x);
hoofglaze_follower_answered hoofglaze_follower_reset(hoofglaze_follower f);

typedef struct {
    float c;
    float x1, y1;
} hoofglaze_blocker;

typedef struct {
    hoofglaze_blocker blocker;
    hoofglaze_answer answer;
} hoofglaze_blocker_answered;

/* A step: y = fma(c, y1, x - x1), then x1 = x, y1 = y; the value is y. Reset zeroes x1 and y1. */
hoofglaze_blocker_answered hoofglaze_blocker_make(float c);
hoofglaze_blocker_answered hoofglaze_blocker_step(hoofglaze_blocker b, float x);
hoofglaze_blocker_answered hoofglaze_blocker_reset(hoofglaze_blocker b);

/* ---- Noise gate
 *
 * One sample, in order: follower; loud = level > threshold's factor. Loud sets the counter to H, else a
 * counter above 0 drops by one. Aim open = loud or counter > 0; target 1 or 0. If target > state, c =
 * attack's number, else release's; state = fma(c, state, (1-c)*target). If state < 0.999, g = 1/ratio and
 * gain = fma(1-g, state, g); else 1. Output = input*gain. H, the hold in samples, is the truncation of
 * (hold*0.001)*rate. All in float, each operation rounded. The quiet count, which nothing else depends on, is
 * 0 after a loud sample, and one more after any other; it stops at 4,294,967,295.
 *
 * Decibels and linear factors are kept apart; neither is ever accepted for the other. */

typedef struct {
    float decibels;
} hoofglaze_decibels;

typedef struct {
    float factor;
} hoofglaze_factor;

/* What a host sets. */
typedef struct {
    float rate;                   /* a whole number from 8,000 to 192,000 Hz */
    hoofglaze_decibels threshold; /* -80 to 0 dB */
    hoofglaze_factor factor;      /* the threshold's linear factor, 2^-14 to 1 */
    float ratio;                  /* 1 to 100 */
    float attack, opening;        /* 0.1 to 100 ms, and its smoothing number, from 0 to below 1 */
    float release, closing;       /* 1 to 1,000 ms, and its smoothing number, from 0 to below 1 */
    float hold;                   /* 0 to 500 ms */
    float rising, falling;        /* the follower's attack and release numbers, from 0 to below 1 */
} hoofglaze_gate_settings;

/* What a sample moves. */
typedef struct {
    float level;      /* 0 to 64 */
    float state;      /* 0 to 1 */
    uint64_t counter; /* 0 to 96,000 */
    uint32_t quiet;   /* any */
} hoofglaze_gate_registers;

typedef struct {
    hoofglaze_gate_settings settings;
    hoofglaze_gate_registers registers;
} hoofglaze_gate;

/* A gate as versions before 9 have it, without a quiet count: its 64 bytes are the first of today's 72. */
typedef struct {
    float level;
    float state;
    uint64_t counter;
} hoofglaze_gate_registers_before;

typedef struct {
    hoofglaze_gate_settings settings;
    hoofglaze_gate_registers_before registers;
} hoofglaze_gate_before;

typedef struct {
    hoofglaze_gate gate;
    hoofglaze_answer answer;
} hoofglaze_gate_answered;

/* A gate at rest: threshold 0 dB, factor 1; ratio 10; attack 1 ms; release 100 ms; hold 100 ms; attack's
 * and release's smoothing numbers 0; level, state, counter and quiet count 0. Refused by 5, then 4, with a
 * gate whose numbers are all 0, the rate too, which 9 refuses ever after. */
hoofglaze_gate_answered hoofglaze_gate_make(float rate, float rising, float falling);

/* Today's gate for one that a version before 9 kept: its quiet count is 0, and every other bit is as it was.
 * It refuses nothing: what 9 refuses, it refuses at the next call. Outputs, states, aims and open counts then
 * go on as they would have, and the quiet count is counted from here. */
hoofglaze_gate hoofglaze_gate_load(hoofglaze_gate_before g);

/* A setting by its name, the bytes threshold, ratio, attack, release or hold, with its value in the unit
 * above and its worked number (threshold: the factor; attack, release: the smoothing number), which ratio
 * and hold don't look at: 9, 1, 3, 4. Level, state, counter and quiet count stay; so does a running counter
 * when the hold is changed.
 *
 * Where the hold is set, the answer has H, and exact or cut: the word of H's truncation. It speaks of the
 * float product (hold*0.001)*rate and not of hold*rate/1000: 1/16 ms at 48,000 Hz is 3 samples, but that
 * product is 3.0000002, so cut, with H = 3; 50 ms there is exact, 2400. Of the whole milliseconds 0 to 500
 * at 48,000 Hz 262 are cut, and none of them loses a sample. So show H beside the word: H is what the gate
 * holds. Every other setting that is done tells neither, and so does a refusal: 0 and 0. */
hoofglaze_gate_answered hoofglaze_gate_set(hoofglaze_gate g, const uint8_t *name, size_t bytes,
                                           float value, float worked);

/* The same setting by setting: 9, 3, 4. */
hoofglaze_gate_answered hoofglaze_gate_set_threshold(hoofglaze_gate g, hoofglaze_decibels value,
                                                     hoofglaze_factor worked);
hoofglaze_gate_answered hoofglaze_gate_set_ratio(hoofglaze_gate g, float value);
hoofglaze_gate_answered hoofglaze_gate_set_attack(hoofglaze_gate g, float value, float worked);
hoofglaze_gate_answered hoofglaze_gate_set_release(hoofglaze_gate g, float value, float worked);
hoofglaze_gate_answered hoofglaze_gate_set_hold(hoofglaze_gate g, float value);

/* The answer's value is the setting of that name; of the threshold, the dB last set: 9, 1. */
hoofglaze_answer hoofglaze_gate_read(hoofglaze_gate g, const uint8_t *name, size_t bytes);

/* Level, state, counter and quiet count 0, settings kept: 9. */
hoofglaze_gate_answered hoofglaze_gate_reset(hoofglaze_gate g);

/* A block of samples from one buffer into another of the same length, at most 4,096: 9, 7, 8, 6. An empty
 * block is done. The count is that of the samples at which the gate aimed open. Of a gate that was made, and
 * that these calls alone have changed, the quiet count is how many samples of done blocks came after the latest
 * loud one, or where none was loud since making or the last reset, how many came since; 4,294,967,295 stands
 * for that many and more. An empty block tells the gate's. */
hoofglaze_gate_answered hoofglaze_gate_block(hoofglaze_gate g, const float *input, size_t samples,
                                             float *output, size_t places);

/* The same block, with a record of where the gate aims: a byte for each sample, 1 open, 0 closed. The record
 * must be as long as the input too: 9, 7, 8, 6. All else is as above: state, answer and outputs are those of
 * hoofglaze_gate_block, the record's bytes add up to the count, and a refusal leaves the record as it was.
 * Of a gate that was made, and that these calls alone have changed, a byte is 1 exactly if some sample since
 * making or the last reset was loud and the latest such is this one or fewer than H back, H being the hold in
 * samples in force at that loud one. (A counter that a host puts in holds a gate open with no loud sample.) */
hoofglaze_gate_answered hoofglaze_gate_record(hoofglaze_gate g, const float *input, size_t samples,
                                              float *output, size_t places, uint8_t *aims, size_t bytes);

/* A setting, a reset and a block on the host's own gate, changed where it lies: its settings and its registers
 * are written, and the four bytes between them stay. The last four bytes of a gate, behind its quiet count, are
 * any after a call that is done, and stay in a refused one. In a gate that is given back by value both are
 * any. */
hoofglaze_answer hoofglaze_gate_set_in_place(hoofglaze_gate *g, const uint8_t *name, size_t bytes,
                                             float value, float worked);
hoofglaze_answer hoofglaze_gate_reset_in_place(hoofglaze_gate *g);
hoofglaze_answer hoofglaze_gate_block_in_place(hoofglaze_gate *g, const float *input, size_t samples,
                                               float *output, size_t places);

/* ---- Clipper
 *
 * A block of n samples by a finite drive, else 3: the product, then the clamp to -1..1 or the triode's
 * table of 256 entries over -10..10, between which a cubic runs: 7, 8, 3, 6. n and m are the lengths of
 * the two buffers. An empty block is done. Every output of a done block is from -1 to 1. It keeps no
 * state. */
hoofglaze_answer hoofglaze_clip_hard(float drive, const float *input, size_t n, float *output, size_t m);
hoofglaze_answer hoofglaze_clip_triode(float drive, const float *input, size_t n, float *output, size_t m);

/* ---- Equaliser
 *
 * Sixteen bands in a row, in double, then one rounding to float. Their centres in Hz: 25, 40, 63, 100,
 * 160, 250, 400, 630, 1000, 1600, 2500, 4000, 6300, 10000, 16000, 20000. A band's name is the bytes
 * band_ and then its index, from 0: an optional +, one or more decimal digits, leading zeros allowed, at
 * most 2^64-1. Anything else is refused by 1, an index above 15 by 2. */

/* A band's worked numbers: five that are finite, else 4. */
typedef struct {
    double b0, b1, b2, a1, a2;
} hoofglaze_eq_numbers;

typedef struct {
    hoofglaze_decibels value; /* -12 to 12 dB */
    hoofglaze_eq_numbers numbers;
} hoofglaze_eq_band;

/* What a host sets. */
typedef struct {
    float rate;
    hoofglaze_eq_band bands[16];
} hoofglaze_eq_settings;

typedef struct {
    double x1, x2, y1, y2;
} hoofglaze_eq_delay;

/* What a sample moves: any bits. */
typedef struct {
    hoofglaze_eq_delay bands[16];
} hoofglaze_eq_registers;

typedef struct {
    hoofglaze_eq_settings settings;
    hoofglaze_eq_registers registers;
} hoofglaze_eq;

typedef struct {
    hoofglaze_eq equaliser;
    hoofglaze_answer answer;
} hoofglaze_eq_answered;

/* All bands at 0 dB, b0 = 1 and the other four 0, at rest. Refused by 5, with numbers that are all 0. */
hoofglaze_eq_answered hoofglaze_eq_make(float rate);

/* A band by its name: 9, 1, 2, 3, 4; by its index: 9, 2, 3, 4. If the size of the value, as double, is
 * below 1e-6, the five are checked but not used: b0 = 1, the others 0, the band's registers zeroed. Else,
 * if its b1 and a1 both equalled 0 before, its registers are zeroed; then the five are taken. */
hoofglaze_eq_answered hoofglaze_eq_set(hoofglaze_eq e, const uint8_t *name, size_t bytes,
                                       hoofglaze_decibels value, hoofglaze_eq_numbers worked);
hoofglaze_eq_answered hoofglaze_eq_set_band(hoofglaze_eq e, size_t band, hoofglaze_decibels value,
                                            hoofglaze_eq_numbers worked);

/* The dB last set: 9, 1, 2. */
hoofglaze_answer hoofglaze_eq_read(hoofglaze_eq e, const uint8_t *name, size_t bytes);

/* Registers 0: 9. */
hoofglaze_eq_answered hoofglaze_eq_reset(hoofglaze_eq e);

/* A block of samples from one buffer into another: 9, 7, 8, 6. An empty block is done. Each band: y =
 * fma(b0, x, fma(b1, x1, b2*x2)) - fma(a1, y1, a2*y2). */
hoofglaze_eq_answered hoofglaze_eq_block(hoofglaze_eq e, const float *input, size_t samples,
                                         float *output, size_t places);

/* ---- Tone stack
 *
 * The names are bass, mid, treble and presence. */

/* What a host sets. */
typedef struct {
    float rate;
    uint32_t model;                     /* 0 Modern, 1 British, 2 American, 3 Flat; above 3 is 9 */
    float bass, mid, treble, presence;  /* 0 to 2 */
    hoofglaze_factor factor;            /* presence's factor, 0.5 to 2 */
} hoofglaze_tone_settings;

/* What a sample moves: any bits. */
typedef struct {
    float dc, bass, treble, presence;
} hoofglaze_tone_registers;

typedef struct {
    hoofglaze_tone_settings settings;
    hoofglaze_tone_registers registers;
} hoofglaze_tone;

typedef struct {
    hoofglaze_tone tone;
    hoofglaze_answer answer;
} hoofglaze_tone_answered;

/* A tone stack at rest: all four controls 1, factor 1. Refused by 5, with numbers that are all 0. */
hoofglaze_tone_answered hoofglaze_tone_make_modern(float rate);
hoofglaze_tone_answered hoofglaze_tone_make_british(float rate);
hoofglaze_tone_answered hoofglaze_tone_make_american(float rate);
hoofglaze_tone_answered hoofglaze_tone_make_flat(float rate);

/* A control by its name with its value, which is clamped to 0 to 2, and its worked number, which
 * only presence looks at: 9, 1, 3 (NaN), 4. */
hoofglaze_tone_answered hoofglaze_tone_set(hoofglaze_tone t, const uint8_t *name, size_t bytes,
                                           float value, float worked);

/* The same control by control: 9, 3, 4. */
hoofglaze_tone_answered hoofglaze_tone_set_bass(hoofglaze_tone t, float value);
hoofglaze_tone_answered hoofglaze_tone_set_mid(hoofglaze_tone t, float value);
hoofglaze_tone_answered hoofglaze_tone_set_treble(hoofglaze_tone t, float value);
hoofglaze_tone_answered hoofglaze_tone_set_presence(hoofglaze_tone t, float value,
                                                    hoofglaze_factor worked);

/* The control's value after its clamp: 9, 1. */
hoofglaze_answer hoofglaze_tone_read(hoofglaze_tone t, const uint8_t *name, size_t bytes);

/* Registers 0: 9. */
hoofglaze_tone_answered hoofglaze_tone_reset(hoofglaze_tone t);

/* A block of samples from one buffer into another: 9, 7, 8, 6. An empty block is done. */
hoofglaze_tone_answered hoofglaze_tone_block(hoofglaze_tone t, const float *input, size_t samples,
                                             float *output, size_t places);

/* ---- Multiband saturator
 *
 * The names are low_drive, mid_drive, high_drive, low_level, mid_level, high_level, low_freq and
 * high_freq. */

/* A filter's worked numbers: five that are finite, else 4. */
typedef struct {
    float b0, b1, b2, a1, a2;
} hoofglaze_saturator_numbers;

/* What a frequency carries. */
typedef struct {
    hoofglaze_saturator_numbers lowpass, highpass;
} hoofglaze_saturator_crossover;

/* A number for each band. */
typedef struct {
    float low, mid, high;
} hoofglaze_saturator_bands;

typedef struct {
    float low, high; /* 50 to 500 Hz, 1,000 to 6,000 Hz */
} hoofglaze_saturator_frequencies;

/* What a host sets. */
typedef struct {
    float rate;
    hoofglaze_saturator_bands drives; /* 0 to 1 */
    hoofglaze_saturator_bands levels; /* 0 to 2 */
    hoofglaze_saturator_frequencies frequencies;
    hoofglaze_saturator_crossover low, high; /* what the two frequencies carry */
    float attack, release, blocker;          /* the followers' two and the DC blockers' c, of all bands */
} hoofglaze_saturator_settings;

typedef struct {
    float x1, x2, y1, y2;
} hoofglaze_saturator_half;

typedef struct {
    hoofglaze_saturator_half first, second;
} hoofglaze_saturator_filter;

/* A follower's level and a DC blocker's two registers. */
typedef struct {
    float level, x1, y1;
} hoofglaze_saturator_band;

/* What a sample moves: any bits. The filters below the low frequency and above it, the two that part what
 * is above it at the high frequency, and the two at the high frequency whose sum is the low band. */
typedef struct {
    hoofglaze_saturator_filter low, side, mid, high, lowpass, highpass;
    hoofglaze_saturator_band lows, mids, highs;
} hoofglaze_saturator_registers;

typedef struct {
    hoofglaze_saturator_settings settings;
    hoofglaze_saturator_registers registers;
} hoofglaze_saturator;

typedef struct {
    hoofglaze_saturator saturator;
    hoofglaze_answer answer;
} hoofglaze_saturator_answered;

/* A saturator at rest: drives 0, levels 1, 200 Hz and 2,000 Hz. The three c are from 0 up to but excluding
 * 1. Refused by 5, then 4, with numbers that are all 0. */
hoofglaze_saturator_answered hoofglaze_saturator_make(float rate, hoofglaze_saturator_crossover low,
                                                      hoofglaze_saturator_crossover high, float attack,
                                                      float release, float blocker);

/* A setting by its name, with its value and its worked numbers, which only the two frequencies look at:
 * 9, 1, 3, 4. Registers stay. */
hoofglaze_saturator_answered hoofglaze_saturator_set(hoofglaze_saturator s, const uint8_t *name,
                                                     size_t bytes, float value,
                                                     hoofglaze_saturator_crossover worked);

/* The same setting by setting: 9, 3, 4. */
hoofglaze_saturator_answered hoofglaze_saturator_set_low_drive(hoofglaze_saturator s, float value);
hoofglaze_saturator_answered hoofglaze_saturator_set_mid_drive(hoofglaze_saturator s, float value);
hoofglaze_saturator_answered hoofglaze_saturator_set_high_drive(hoofglaze_saturator s, float value);
hoofglaze_saturator_answered hoofglaze_saturator_set_low_level(hoofglaze_saturator s, float value);
hoofglaze_saturator_answered hoofglaze_saturator_set_mid_level(hoofglaze_saturator s, float value);
hoofglaze_saturator_answered hoofglaze_saturator_set_high_level(hoofglaze_saturator s, float value);
hoofglaze_saturator_answered hoofglaze_saturator_set_low_freq(hoofglaze_saturator s, float value,
                                                              hoofglaze_saturator_crossover worked);
hoofglaze_saturator_answered hoofglaze_saturator_set_high_freq(hoofglaze_saturator s, float value,
                                                               hoofglaze_saturator_crossover worked);

/* The value last set: 9, 1. */
hoofglaze_answer hoofglaze_saturator_read(hoofglaze_saturator s, const uint8_t *name, size_t bytes);

/* Registers 0: 9. */
hoofglaze_saturator_answered hoofglaze_saturator_reset(hoofglaze_saturator s);

/* A block of samples from one buffer into another: 9, 7, 8, 6. An empty block is done. */
hoofglaze_saturator_answered hoofglaze_saturator_block(hoofglaze_saturator s, const float *input,
                                                       size_t samples, float *output, size_t places);

/* ---- Leveller
 *
 * For soft talkers: it brings loud passages down, and makeup brings all up, so that soft words come out
 * nearer to loud ones. Of the dB that the level is above the threshold, half are left at ratio 2 and a
 * quarter at ratio 4; while it is not above, a sample is multiplied by makeup alone.
 *
 * One sample, in order: r is the larger of the sample's size and 1e-10; follower on r, with attack's and
 * release's numbers; over is the larger of level/factor and 1. If ratio is 1 or over is 1, gain = 1; else s
 * is the root of over, and gain = 1/s at ratio 2, 1/(s*q) at ratio 4, where q is the root of s. Output =
 * (input*gain)*makeup. All in float, each operation rounded.
 *
 * The gain is above 0 and at most 1, so no output is larger in size than input*makeup. At ratio 1 and makeup
 * 1, as it is made, each output is its input, bit for bit.
 *
 * With makeup an output can be up to 256 in size. Another stage's 6, and the leveller's own, refuses what is
 * larger than 64: a host scales or clips such outputs before it hands them on. */

/* What a host sets. */
typedef struct {
    float rate;
    hoofglaze_decibels threshold; /* -80 to 0 dB */
    hoofglaze_factor factor;      /* the threshold's linear factor, 2^-14 to 1 */
    float ratio;                  /* 1, 2 or 4 */
    float attack, rising;         /* 0.1 to 100 ms, and its smoothing number, from 0 to below 1 */
    float release, falling;       /* 1 to 1,000 ms, and its smoothing number, from 0 to below 1 */
    hoofglaze_factor makeup;      /* 0 to 4 */
} hoofglaze_leveller_settings;

/* What a sample moves. */
typedef struct {
    float level; /* 0 to 64 */
} hoofglaze_leveller_registers;

typedef struct {
    hoofglaze_leveller_settings settings;
    hoofglaze_leveller_registers registers;
} hoofglaze_leveller;

typedef struct {
    hoofglaze_leveller leveller;
    hoofglaze_answer answer;
} hoofglaze_leveller_answered;

/* A leveller at rest: threshold 0 dB, factor 1; ratio 1; attack 1 ms and release 100 ms, whose smoothing
 * numbers are given here; makeup 1; level 0. Refused by 5, then 4, with numbers that are all 0. */
hoofglaze_leveller_answered hoofglaze_leveller_make(float rate, float rising, float falling);

/* A setting by its name, the bytes threshold, ratio, attack, release or makeup, with its value in the unit
 * above (makeup: its factor) and its worked number (threshold: the factor; attack, release: the smoothing
 * number), which ratio and makeup don't look at: 9, 1, 3, 4. The level stays. */
hoofglaze_leveller_answered hoofglaze_leveller_set(hoofglaze_leveller l, const uint8_t *name, size_t bytes,
                                                   float value, float worked);

/* The same setting by setting: 9, 3, 4. */
hoofglaze_leveller_answered hoofglaze_leveller_set_threshold(hoofglaze_leveller l, hoofglaze_decibels value,
                                                             hoofglaze_factor worked);
hoofglaze_leveller_answered hoofglaze_leveller_set_ratio(hoofglaze_leveller l, float value);
hoofglaze_leveller_answered hoofglaze_leveller_set_attack(hoofglaze_leveller l, float value, float worked);
hoofglaze_leveller_answered hoofglaze_leveller_set_release(hoofglaze_leveller l, float value, float worked);
hoofglaze_leveller_answered hoofglaze_leveller_set_makeup(hoofglaze_leveller l, hoofglaze_factor value);

/* The answer's value is the setting of that name; of the threshold, the dB last set; of makeup, its factor:
 * 9, 1. */
hoofglaze_answer hoofglaze_leveller_read(hoofglaze_leveller l, const uint8_t *name, size_t bytes);

/* Level 0, settings kept: 9. */
hoofglaze_leveller_answered hoofglaze_leveller_reset(hoofglaze_leveller l);

/* A block of samples from one buffer into another: 9, 7, 8, 6. An empty block is done. */
hoofglaze_leveller_answered hoofglaze_leveller_block(hoofglaze_leveller l, const float *input, size_t samples,
                                                     float *output, size_t places);

/* ---- Recordings
 *
 * A RIFF WAVE file that lies whole in a buffer, PCM of 16 bits and one channel. Reading it says where its
 * samples are, and at which rate: nothing is copied and nothing is written. Writing makes such a file of
 * samples, in another buffer.
 *
 * The chunks of a file that is read are gone through from byte 12 on, up to the RIFF size plus 8 or to the
 * buffer's end, whichever is first: no byte behind that is looked at, and a RIFF size that is too large does
 * no harm. The first `fmt ` gives the format and the first `data` the samples, which ends the search. What is
 * in any other chunk, a later `fmt ` too, is passed over, with the pad byte behind an odd size.
 *
 * 0 done
 * 10 no RIFF WAVE file: it doesn't begin as one, is shorter than 12 bytes, or its RIFF size is below 4
 * 11 cut short, or a size in it is wrong: a chunk, its head or its pad byte runs past that end (the pad byte
 *    of `data` isn't looked at)
 * 12 no samples to be found: no `data`, or no `fmt ` before it
 * 13 not 16-bit PCM of one channel, or not said so by a `fmt ` of 16 bytes with tag 1: the `fmt ` isn't 16
 *    bytes long, the tag isn't 1 (float and extensible files have another), the channels aren't 1, the bits
 *    16, the block align 2 or the byte rate twice the rate
 * 5 sample rate isn't from 8,000 to 192,000
 * 14 an odd number of bytes of samples
 * 15 less room than the file takes, or its head
 * 17 more than 1,048,576 bytes of samples; for a head alone, more than 4,294,967,259
 *
 * Reading is refused by 10 to 14 and 5, writing by 5, 14, 15 and 17.
 *
 * Of a file that is read the first fault is the answer, and at one chunk the first of 11, 12, 13, 5, 14: a
 * bad `fmt ` is 13 or 5 whatever comes behind it.
 *
 * A recorder that lost power may have left 0 for the size of `data`: that reads as an empty recording and is
 * done, whatever lies behind it. */
typedef struct {
    uint32_t number; /* 0 done, or what it is refused by: then the other three are 0 */
    uint32_t rate;   /* in Hz; a stage takes it as (float)rate, which is the same number */
    uint64_t place;  /* of the samples: bytes from the buffer's start to the first; even */
    uint64_t length; /* of the samples in bytes; even */
} hoofglaze_wave;

/* Where the samples of a file of so many bytes lie, whatever the bytes are: .length / 2 samples from
 * file + .place on, each two bytes, the lower first, signed. .place + .length is at most `bytes`, and at most
 * the RIFF size plus 8. Where .length is 0, .place may be `bytes`. */
hoofglaze_wave hoofglaze_wave_read(const uint8_t *file, size_t bytes);

/* A written file of n bytes of samples is a head of 44 bytes and the samples behind it; its numbers have the
 * lowest byte first.
 *
 *   at  0  `RIFF`, 36 + n in four bytes, `WAVE`
 *   at 12  `fmt `, 16 in four, 1 in two, 1 in two, rate in four, 2 * rate in four, 2 in two, 16 in two
 *   at 36  `data`, n in four
 *   at 44  the samples as they are: two bytes each, the lower first, signed
 *
 * Read again, it gives the rate, place 44 and the same samples, whatever lies behind it in the buffer.
 *
 * What was read from a file is written again as the same bytes where its place is 44, nothing lies behind its
 * samples and its RIFF size is 36 + .length. Where it had other chunks or bytes behind its samples, it comes
 * out shorter, without them. Where only its RIFF size is another, which is then too large, no other byte
 * differs. More than 1,048,576 bytes of samples can be read and not written by one call: hoofglaze_wave_head
 * gives their head. */
typedef struct {
    uint32_t number; /* 0 done, or what it is refused by: then length is 0 */
    uint32_t length; /* of what was written, in bytes: 44 + n, or 44 for a head alone */
} hoofglaze_written;

/* Writes so many bytes of samples as a file at the start of the output, whose room must be 44 + `bytes` or
 * more: 5, 14, 17, 15. An empty recording is done: a file of 44 bytes. What lies behind the file stays as it
 * was; where the call is refused, all of the output does. */
hoofglaze_written hoofglaze_wave_write(uint32_t rate, const uint8_t *samples, size_t bytes, uint8_t *output,
                                       size_t room);

/* Writes the head alone, 44 bytes at the start of the output, for so many bytes of samples that the host writes
 * behind it: 5, 14, 17, 15. Head and samples are then the file that hoofglaze_wave_write would write, for more
 * of them than it takes: any even number whose RIFF size fits in 32 bits. Done, its length is 44. What lies
 * behind the 44 bytes stays as it was; where the call is refused, all of the output does. */
hoofglaze_written hoofglaze_wave_head(uint32_t rate, uint64_t bytes, uint8_t *output, size_t room);

#ifdef __cplusplus
}
#endif

#endif
