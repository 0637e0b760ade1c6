/* Checks of any stage that is made, set, read, reset and run by value: refusals with the state and the
 * buffer that they leave, blocks bit for bit, and the NaNs of outputs and registers. */
#include "stage.h"

enum { BLOCKS = 40 };

const float good_rate[GOOD_RATES] = {8000, 8001, 44100, 48000, 96000, 191999, 192000};
const uint32_t bad_rate[BAD_RATES] = {0, SIGN, 0x45f9ffff, 0x45f9f800, 0x483b8001, 0x483b8040,
                                      0x473b8040, 0xc73b8000, INFINITE, SIGN + INFINITE, QUIET32, ODD_NAN};
const uint32_t odd[ODD] = {QUIET32, ODD_NAN, INFINITE + 1, INFINITE, SIGN + INFINITE};

float input[ROOM], output[ROOM], expected[ROOM];

/* ---- buffers */

uint32_t buffer_bits(size_t i)
{
    return i % 3 ? ODD_NAN + (uint32_t)i : 0x3e000000u + (uint32_t)i;
}

void fill_output(void)
{
    for (size_t i = 0; i < ROOM; i++)
        output[i] = float_of(buffer_bits(i));
}

void check_untouched(const char *call)
{
    size_t changed = 0;
    for (size_t i = 0; i < ROOM; i++)
        changed += bytes32(output[i]) != buffer_bits(i);
    check(call, changed, 0, 0, 0, 0);
}

uint32_t between(uint32_t low, uint32_t high)
{
    return low + drawn() % (high - low + 1);
}

void quiet_input(void)
{
    for (int i = 0; i < ROOM; i++)
        input[i] = float_of(0x3c000000 + drawn() % 0x02000000 + (drawn() & SIGN));
}

void draw_input(void)
{
    static const uint32_t ends[] = {0, SIGN, 1, SIGN + 1, 0x007fffff, 0x00800000, SIXTY_FOUR,
                                    SIGN + SIXTY_FOUR};
    uint32_t low = 0;
    for (int i = 0; i < ROOM; i++) {
        if (i == 0 || drawn() % 200 == 0)
            low = drawn() % 3 * 0x1f000000;
        input[i] = float_of(drawn() % 50 == 0 ? ends[drawn() % COUNT(ends)]
                                              : between(low, low + 0x01800000) + (drawn() & SIGN));
    }
}

static const hoofglaze_truncation no_hold;

/* What a gate's answers alone can tell. */
static void check_gates_own(const char *call, hoofglaze_answer given, hoofglaze_truncation hold,
                            uint32_t quiet)
{
    check(call, given.samples, hold.whole, given.number, hold.word, 0);
    check(call, given.word, hold.word, given.number, hold.whole, 0);
    check(call, given.quiet, quiet, given.number, given.count, 0);
}

static void check_stages(const char *call, hoofglaze_answer given, uint32_t number, size_t place, size_t count,
                         uint32_t value)
{
    check(call, given.number, number, place, count, value);
    check(call, given.place, place, number, count, value);
    check(call, given.count, count, number, place, value);
    check(call, bytes32(given.value), value, number, place, count);
}

void check_answer(const char *call, hoofglaze_answer given, uint32_t number, size_t place, size_t count,
                  uint32_t value)
{
    check_stages(call, given, number, place, count, value);
    check_gates_own(call, given, no_hold, 0);
}

void check_hold_answer(const char *call, hoofglaze_answer given, hoofglaze_truncation hold)
{
    check_stages(call, given, 0, 0, 0, 0);
    check_gates_own(call, given, hold, 0);
}

void check_block_answer(const char *call, hoofglaze_answer given, size_t count, uint32_t quiet)
{
    check_stages(call, given, 0, 0, count, 0);
    check_gates_own(call, given, no_hold, quiet);
}

/* ---- states */

void check_state(const struct stage *s, const char *call, const void *given, const void *said)
{
    for (int i = 0; i < s->settings + s->registers; i++)
        check(call, s->number(given, i), s->number(said, i), i, 0, 0);
}

void check_call(const struct stage *s, const char *call, hoofglaze_answer answer, const void *given,
                uint32_t number, const void *said)
{
    check_answer(call, answer, number, 0, 0, 0);
    check_state(s, call, given, said);
}

static any_state copy(const struct stage *s, const void *state)
{
    any_state a;
    memcpy(a.bytes, state, s->bytes);
    return a;
}

/* A block that must be refused. */
static void check_refused(const struct stage *s, const void *state, size_t samples, size_t places,
                          uint32_t number, size_t place)
{
    any_state a = copy(s, state);
    fill_output();
    check_answer("a refused block", s->block(&a, input, samples, output, places), number, place, 0, 0);
    check_state(s, "a refused block's state", &a, state);
    check_untouched("a refused block's output");
}

void check_bad_state(const struct stage *s, const void *state, const char *name)
{
    any_state a = copy(s, state);
    check_call(s, "set", s->set(&a, name, strlen(name), 1), &a, 9, state);
    check_call(s, "set", s->set(&a, "none", 4, float_of(ODD_NAN)), &a, 9, state);
    check_call(s, "typed setting", s->typed(&a, 0, 1), &a, 9, state);
    check_call(s, "typed setting", s->typed(&a, 0, float_of(ODD_NAN)), &a, 9, state);
    check_answer("read", s->read(&a, name, strlen(name)), 9, 0, 0, 0);
    check_answer("read", s->read(&a, "none", 4), 9, 0, 0, 0);
    check_call(s, "reset", s->reset(&a), &a, 9, state);
    check_refused(s, state, 0, 0, 9, 0);
    check_refused(s, state, 3, 3, 9, 0);
    check_refused(s, state, 3, 4, 9, 0);
    check_refused(s, state, ROOM, ROOM, 9, 0);
}

void check_bad_number(const struct stage *s, const void *state, const char *name, int i, uint64_t bits)
{
    any_state a = copy(s, state);
    s->put(&a, i, bits);
    check_bad_state(s, &a, name);
}

void check_good_number(const struct stage *s, const void *state, int i, uint64_t bits)
{
    any_state a = copy(s, state), said;
    s->put(&a, i, bits);
    said = a;
    for (int j = 0; j < s->registers; j++)
        s->put(&said, s->settings + j, 0);
    check_call(s, "reset", s->reset(&a), &a, 0, &said);
}

void check_strange_names(const struct stage *s, const char *const *names, int count)
{
    any_state state, a;
    s->draw(&state);
    for (int i = 0; i <= count; i++) {
        /* the last name has a byte 0 behind it */
        const char *name = i < count ? names[i] : names[0];
        size_t bytes = i < count ? strlen(name) : strlen(name) + 1;
        a = copy(s, &state);
        check_call(s, "set", s->set(&a, name, bytes, float_of(i % 2 ? ODD_NAN : ONE)), &a, 1, &state);
        check_answer("read", s->read(&a, name, bytes), 1, 0, 0, 0);
    }
}

/* ---- blocks: 7, 8, 6 */

void check_refused_blocks(const struct stage *s, const void *state)
{
    static const uint32_t samples[] = {SIXTY_FOUR + 1, SIGN + SIXTY_FOUR + 1, INFINITE, SIGN + INFINITE,
                                       QUIET32, ODD_NAN, INFINITE + 1, INFINITE - 1};
    static const size_t places[] = {0, 1, 77, LONGEST - 1};
    for (int i = 0; i < COUNT(samples); i++)
        for (int j = 0; j < COUNT(places); j++) {
            quiet_input();
            input[places[j]] = float_of(samples[i]);
            check_refused(s, state, places[j] + 1, places[j] + 1, 6, places[j]);
            input[LONGEST - 1] = float_of(j % 2 ? samples[i] : ODD_NAN);
            check_refused(s, state, LONGEST, LONGEST, 6, places[j]);
            check_refused(s, state, ROOM, ROOM, 8, 0);
            check_refused(s, state, LONGEST, places[j], 7, 0);
            check_refused(s, state, places[j], ROOM, 7, 0);
            check_refused(s, state, ROOM, places[j], 7, 0);
        }
}

void check_known(const struct stage *s, void *state, const uint32_t answers[KNOWN])
{
    static const float samples[KNOWN] = {1, 0.5f, -0.25f, 0, -0.0f, 64, -64, 1e-40f, 0.75f, -0.0001f};
    check_answer("block", s->block(state, samples, KNOWN, output, KNOWN), 0, 0, 0, 0);
    for (int i = 0; i < KNOWN; i++)
        check("block's output", bytes32(output[i]), answers[i], bytes32(samples[i]), i, 0);
}

/* A block that is done, against the formulas; every NaN is the quiet one, and an empty block leaves the
 * registers as they are. */
void check_done(const struct stage *s, void *state, size_t samples)
{
    any_state said = copy(s, state);
    size_t changed = 0;
    for (size_t i = 0; i < samples; i++)
        expected[i] = s->step(&said, input[i]);
    fill_output();
    check_answer("block", s->block(state, input, samples, output, samples), 0, 0, 0, 0);
    check_state(s, "block's state", state, &said);
    for (size_t i = 0; i < ROOM; i++) {
        if (i < samples)
            check("block's output", bytes32(output[i]), bytes32(expected[i]), bytes32(input[i]), i,
                  samples);
        else
            changed += bytes32(output[i]) != buffer_bits(i);
    }
    check("what lies behind a block's output", changed, 0, samples, 0, 0);
}

static void done_blocks(const struct stage *s)
{
    static const size_t lengths[] = {0, 1, 2, 3, 480, LONGEST - 1, LONGEST};
    any_state state;
    for (int i = 0; i < BLOCKS; i++) {
        s->draw(&state);
        for (int j = 0; j < 3; j++) {
            draw_input();
            check_done(s, &state, lengths[(i + j) % COUNT(lengths)]);
        }
    }
}

/* ---- NaNs */

static uint64_t odd_bits(const struct stage *s, int i)
{
    uint64_t sign = s->wide ? (uint64_t)SIGN << 32 : SIGN;
    uint64_t infinity = s->wide ? 0x7ff0000000000000u : INFINITE;
    return i < 2 ? infinity + (i ? sign : 0) : nan_bits(sign, infinity, i - 2);
}

/* Each register with infinities and NaNs of every kind, then all of them with any. */
static void odd_registers(const struct stage *s)
{
    any_state drawn_state, state;
    quiet_input();
    s->draw(&drawn_state);
    for (int i = 0; i < s->registers; i++)
        for (int j = 0; j < NANS + 2; j += 1 + (s->registers > 8) * (int)(drawn() % 16)) {
            state = copy(s, &drawn_state);
            s->put(&state, s->settings + i, odd_bits(s, j));
            check_done(s, &state, 0);
            check_done(s, &state, 1 + j % 3);
        }
    for (int i = 0; i < BLOCKS; i++) {
        s->draw(&state);
        for (int j = 0; j < s->registers; j++)
            if (drawn() % (1 + i % 4 * 8) == 0)
                s->put(&state, s->settings + j, odd_bits(s, (int)(drawn() % (NANS + 2))));
        check_done(s, &state, 0);
        check_done(s, &state, 1 + i % 5);
    }
}

/* A state kept as bytes, and handed back: the rest of the block has the same bits. */
static void kept_states(const struct stage *s)
{
    static float whole[ROOM];
    for (int i = 0; i < BLOCKS / 4; i++) {
        any_state first, all, handed;
        size_t cut = drawn() % LONGEST, wrong = 0;
        s->draw(&first);
        all = first;
        draw_input();
        check_answer("block", s->block(&all, input, LONGEST, whole, LONGEST), 0, 0, 0, 0);
        check_answer("block", s->block(&first, input, cut, output, cut), 0, 0, 0, 0);
        handed = copy(s, &first);
        check_answer("block", s->block(&handed, input + cut, LONGEST - cut, output + cut, LONGEST - cut), 0,
                     0, 0, 0);
        check_state(s, "a kept state", &handed, &all);
        for (int j = 0; j < LONGEST; j++)
            wrong += bytes32(output[j]) != bytes32(whole[j]);
        check("a kept state's block", wrong, 0, cut, i, 0);
    }
}

/* Of a state with odd bits in some registers. */
static void refused_blocks(const struct stage *s)
{
    any_state state;
    s->draw(&state);
    for (int i = 0; i < s->registers; i += 3)
        s->put(&state, s->settings + i, s->wide ? 0xfff0000000054321u : ODD_NAN);
    check_refused_blocks(s, &state);
}

void check_blocks(const struct stage *s)
{
    group(s->groups[0]);
    refused_blocks(s);
    group(s->groups[1]);
    done_blocks(s);
    group(s->groups[2]);
    odd_registers(s);
    group(s->groups[3]);
    kept_states(s);
}
