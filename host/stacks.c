/* How much stack the calls take. Each runs on a thread with a small stack, which is painted below the call:
 * what of the paint is gone afterwards, and the arguments that lie on the stack, are what the call took, and
 * that is no more than the header says. */
#define _POSIX_C_SOURCE 200809L /* for a thread's stack */
#include "stacks.h"

#include <pthread.h>

#include "stage.h"
#include "wave_write.h"

/* The smallest stack that a thread may have; what a call takes beyond it is seen too. */
enum { SMALL = 16384, BEYOND = 32768, WORD = sizeof(uint64_t) };

enum { DRAWN_FILES = 1000 };

#define PAINT 0xa5c3a5c3a5c3a5c3u

static _Alignas(4096) uint64_t memory[(BEYOND + SMALL) / WORD];

/* ---- a call, by way of a step that notes where the stack stands and goes on to it */

size_t stack_entered;
void (*stack_called)(void);
void stack_enter(void);

__asm__(".text\n"
        ".globl stack_enter\n"
        "stack_enter:\n"
        "    movq %rsp, stack_entered(%rip)\n"
        "    jmpq *stack_called(%rip)\n");

static void (*volatile enter)(void) = stack_enter;

#define CALL(f, ...) (stack_called = (void (*)(void))f, ((__typeof__(f) *)enter)(__VA_ARGS__))

/* ---- what the calls are called with */

static hoofglaze_gate gate, host_gate;
static hoofglaze_gate_before gate_before;
static hoofglaze_eq eq;
static hoofglaze_tone tone;
static hoofglaze_saturator saturator;
static hoofglaze_leveller leveller;
static hoofglaze_follower follower;
static hoofglaze_blocker blocker;
static hoofglaze_decibels decibels;
static hoofglaze_factor factor;
static hoofglaze_eq_numbers numbers;
static hoofglaze_saturator_crossover crossover;
static float rate, value, worked, small[3];
static double large[3];
static const char *name = "";
static size_t bytes, band, samples, places, aim_bytes;
static uint8_t aims[ROOM];
static uint8_t file[LONGEST_FILE];
static size_t file_bytes;
static uint8_t recorded[MOST_RECORDED + 2], written[44 + MOST_RECORDED];
static uint32_t file_rate = 48000;
static size_t recorded_bytes = 2, written_room = sizeof written;
static uint64_t headed_bytes = 2;

#define RUN(f, stage, laid, ...)                                                                           \
    static void run_##f(void)                                                                              \
    {                                                                                                      \
        CALL(f, __VA_ARGS__);                                                                              \
    }
SETTINGS(RUN)
BLOCKS(RUN)
RECORDINGS(RUN)

struct call {
    const char *name;
    size_t most, laid; /* what the header says, and what of the arguments lies on the stack */
    void (*run)(void);
    size_t took; /* the most so far */
};

#define ROW(f, stage, laid, ...) {#f, HOOFGLAZE_STACK_##stage, laid, run_##f, 0},
static struct call settings[] = {SETTINGS(ROW)};
static struct call blocks[] = {BLOCKS(ROW)};
static struct call recordings[] = {RECORDINGS(ROW)};

/* ---- how much a call takes */

static void measure(struct call *c)
{
    volatile uint64_t *word, *top = (uint64_t *)__builtin_frame_address(0) - 24;
    for (word = memory; word < top; word++)
        *word = PAINT;
    c->run();
    for (word = memory; *word == PAINT; word++)
        ;
    size_t took = c->laid + stack_entered + WORD - (size_t)word;
    c->took = took > c->took ? took : c->took;
}

static void measure_all(struct call *calls, int count)
{
    for (int i = 0; i < count; i++)
        measure(&calls[i]);
}

/* ---- states that 9 lets through, or that it refuses */

static void make_states(int good, int model)
{
    rate = good ? 48000 : 0;
    gate = host_gate = hoofglaze_gate_make(rate, 0.5f, 0.75f).gate;
    tone = hoofglaze_tone_make_modern(rate).tone;
    tone.settings.model = (uint32_t)model;
    hoofglaze_saturator_crossover c = {{0.1f, 0.2f, 0.1f, -1, 0.5f}, {0.6f, -1, 0.6f, -1, 0.5f}};
    saturator = hoofglaze_saturator_make(rate, c, c, 0.5f, 0.75f, 0.9f).saturator;
    leveller = hoofglaze_leveller_make(rate, 0.5f, 0.75f).leveller;
    leveller.settings.factor.factor = model == 1 ? 1 : 0x1p-14f;
    leveller.settings.ratio = model == 0 ? 1 : model == 1 ? 2 : 4;
    follower = hoofglaze_follower_make(good ? 0.5f : 1, 0.75f).follower;
    blocker = hoofglaze_blocker_make(good ? 0.5f : 1).blocker;
    eq = hoofglaze_eq_make(rate).equaliser;
    for (int i = 0; i < 16 && good; i++) {
        eq.settings.bands[i].value.decibels = (float)i - 7.5f;
        eq.settings.bands[i].numbers = (hoofglaze_eq_numbers){0.9, -0.3 * i, 0.2, -0.5, 0.25};
    }
}

static void draw_operands(void)
{
    for (int i = 0; i < 3; i++) {
        small[i] = float_of((uint32_t)drawn());
        large[i] = double_of(drawn());
    }
}

static const char *const names[] = {
    "threshold", "ratio", "attack", "release", "hold", "bass", "mid", "treble", "presence", "low_drive",
    "mid_drive", "high_drive", "low_level", "mid_level", "high_level", "low_freq", "high_freq", "band_0",
    "band_+00000000000000000015", "band_16", "band_18446744073709551616", "band_x", "makeup", ""};
static const uint32_t values[] = {0xc2200000, 0x3f000000, 0x40000000, 0x41200000, 0x42c80000,
                                  0x44fa0000, 0x00000000, ODD_NAN,    0x7f7fffff};

static void try_settings(int i, int j, int good, int fair)
{
    name = names[i];
    bytes = strlen(name);
    band = (size_t)(i + j);
    value = float_of(values[j]);
    worked = fair ? 0.75f : float_of(ODD_NAN);
    decibels.decibels = value;
    factor.factor = worked;
    numbers = (hoofglaze_eq_numbers){0.9, -0.3, 0.2, worked, 0.25};
    crossover = (hoofglaze_saturator_crossover){{0.1f, 0.2f, 0.1f, -1, 0.5f}, {0.6f, -1, 0.6f, -1, worked}};
    make_states(good, j % 4);
    draw_operands();
    measure_all(settings, COUNT(settings));
}

/* Samples of any size that is accepted, and perhaps a last one that is not. */
static void try_block(size_t from, size_t to, int refused, int good, int model)
{
    samples = from;
    places = to;
    aim_bytes = model == 3 ? to - to / 2 : to;
    for (size_t i = 0; i < from; i++)
        input[i] = float_of((uint32_t)(drawn() % (SIXTY_FOUR + 1) + (drawn() % 2 ? SIGN : 0)));
    if (refused)
        input[from - 1] = float_of(SIXTY_FOUR + 1);
    value = float_of(model ? TWO : ODD_NAN);
    make_states(good, model);
    measure_all(blocks, COUNT(blocks));
}

/* A file that is read, and samples that are written or refused: few of them, and now and then the most and
 * more. */
static void try_recording(int i)
{
    static const size_t lengths[] = {MOST_RECORDED, MOST_RECORDED + 1, MOST_RECORDED + 2};
    file_bytes = draw_file(file);
    file_rate = i % 8 ? 48000 : 7999;
    recorded_bytes = i % 50 ? drawn() % LONGEST_FILE : lengths[i / 50 % COUNT(lengths)];
    written_room = i % 4 ? sizeof written : 44 + recorded_bytes / 2;
    headed_bytes = i % 16 ? recorded_bytes : drawn() >> drawn() % 64;
    if (i % 32 == 4)
        written_room = 43;
    measure_all(recordings, COUNT(recordings));
}

static void *on_small_stack(void *unused)
{
    for (int i = 0; i < COUNT(names); i++)
        for (int j = 0; j < COUNT(values); j++)
            for (int k = 0; k < 4; k++)
                try_settings(i, j, k % 2, k / 2);
    for (int model = 0; model < 4; model++)
        for (int good = 0; good < 2; good++) {
            try_block(LONGEST, LONGEST, 0, good, model);
            try_block(LONGEST, LONGEST, 1, good, model);
            try_block(LONGEST, LONGEST - 1, 0, good, model);
            try_block(ROOM, ROOM, 0, good, model);
            try_block(1, 1, 0, good, model);
            try_block(0, 0, 0, good, model);
        }
    for (int i = 0; i < DRAWN_FILES; i++)
        try_recording(i);
    return unused;
}

/* Blocks of the states that 9 lets through are done. */
static void check_states(void)
{
    quiet_input();
    make_states(1, 0);
    check("gate_block", hoofglaze_gate_block(gate, input, 1, output, 1).answer.number, 0, 0, 0, 0);
    check("gate_record", hoofglaze_gate_record(gate, input, 1, output, 1, aims, 1).answer.number, 0, 0, 0, 0);
    check("eq_block", hoofglaze_eq_block(eq, input, 1, output, 1).answer.number, 0, 0, 0, 0);
    check("tone_block", hoofglaze_tone_block(tone, input, 1, output, 1).answer.number, 0, 0, 0, 0);
    check("saturator_block", hoofglaze_saturator_block(saturator, input, 1, output, 1).answer.number, 0, 0, 0, 0);
    check("leveller_block", hoofglaze_leveller_block(leveller, input, 1, output, 1).answer.number, 0, 0, 0, 0);
}

/* The linker may bind the C library's functions at their first call, on the stack of whoever calls. */
static void call_once(const struct call *calls, int count)
{
    for (int i = 0; i < count; i++)
        calls[i].run();
}

static void check_all(const struct call *calls, int count)
{
    for (int i = 0; i < count; i++) {
        size_t most = calls[i].most, took = calls[i].took;
        check(calls[i].name, took > most ? took : most, most, 0, 0, 0);
        check(calls[i].name, took >= calls[i].laid + WORD, 1, took, 0, 0);
    }
}

void stack_checks(void)
{
    pthread_t thread;
    pthread_attr_t attributes;
    group("stack: each call on a thread with a small one");
    check_states();
    call_once(settings, COUNT(settings));
    call_once(blocks, COUNT(blocks));
    call_once(recordings, COUNT(recordings));
    int no = pthread_attr_init(&attributes);
    no |= pthread_attr_setstack(&attributes, memory + BEYOND / WORD, SMALL);
    no |= pthread_create(&thread, &attributes, on_small_stack, 0) || pthread_join(thread, 0);
    check("a thread with a small stack", no, 0, SMALL, 0, 0);
    check_all(settings, COUNT(settings));
    check_all(blocks, COUNT(blocks));
    check_all(recordings, COUNT(recordings));
}
