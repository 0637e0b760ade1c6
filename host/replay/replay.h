/* What the parts of the replay share: bytes read and written, the numbers of a call's head, a block's
 * buffers. What stands where in a call and in its answer, oracle/README.md says. */
#ifndef REPLAY_H
#define REPLAY_H

#include "floats.h"
#include "hoofglaze.h"

/* Each reads a call and answers it, and says whether there was one. */
int float_next(void);
int common_next(void);
int clipper_next(void);
int gate_next(void);
int eq_next(void);
int tone_next(void);
int saturator_next(void);
int leveller_next(void);
int wave_next(void);
int wave_write_next(void);
int wave_head_next(void);

/* Whether so many bytes were there to be read. */
int take(void *to, size_t bytes);
void give(const void *from, size_t bytes);

/* Floats in a row, each NaN as the quiet one: a state may hold any, which a refused call leaves. */
void give_floats(const void *from, int count);
void give_doubles(const void *from, int count);

/* The number at a place of a call's head. */
uint32_t word(const uint8_t *head, int at);
float number(const uint8_t *head, int at);

/* A buffer's length, at most one more than a block may have. */
size_t buffer_length(const uint8_t *head, int at);

/* A name's length, of which no more is read than there is room for. */
size_t name_length(const uint8_t *head, size_t room);

/* Longer by one than a block may be. */
enum { LONGEST = 4097 };

/* What each sample of a buffer for the output is before the call, and each byte of one for aims. */
#define BEFORE (-1000.0f)
#define AIM_BEFORE 0xa5

struct block {
    size_t samples, places;
    float input[LONGEST], output[LONGEST];
};

/* The block whose two lengths stand in the head, its samples read; none where the input ends in it. */
struct block *take_block(const uint8_t *lengths);

/* Reads a count and so many bytes: whether they were there and no more than the most. */
int take_counted(uint8_t *to, uint32_t most, uint32_t *count);

/* Reads a tile so, and fills so many bytes with it, from its start again and again: with 0s where it is
 * empty. */
int take_filled(uint8_t *to, size_t bytes);

/* What the reader says of a recording. */
void give_wave(hoofglaze_wave w);

/* Where no call of the stage has the number. */
extern const hoofglaze_answer no_call;

/* A stage with a head of 128 bytes: its calls 1 to 5, a block, and its state taken and told as bytes. */
struct stage {
    hoofglaze_answer (*call)(uint32_t kind, const uint8_t *head);
    hoofglaze_answer (*block)(struct block *b);
    int (*take)(void);
    void (*tell)(void);
};

enum { WORKED = 16, NAME = 64, HEAD = 128 };

int stage_next(const struct stage *s);

#endif
