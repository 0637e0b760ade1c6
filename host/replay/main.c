/* replay STAGE: reads calls on a stage of the library from standard input to its end, and writes the answers
 * to standard output. A read or a write that fails is named on standard error, and the exit status is 1. */
#include <signal.h>
#include <stdio.h>

#include "replay.h"

static const struct {
    const char *name;
    int (*next)(void);
} stages[] = {
    {"float", float_next},
    {"common", common_next},
    {"clipper", clipper_next},
    {"noise_gate", gate_next},
    {"eq", eq_next},
    {"tonestack", tone_next},
    {"multiband_saturator", saturator_next},
    {"leveller", leveller_next},
    {"wave", wave_next},
    {"wave_write", wave_write_next},
    {"wave_head", wave_head_next},
};

int take(void *to, size_t bytes)
{
    return fread(to, 1, bytes, stdin) == bytes;
}

void give(const void *from, size_t bytes)
{
    fwrite(from, 1, bytes, stdout);
}

static int failed(const char *what)
{
    fprintf(stderr, "replay: %s\n", what);
    return 1;
}

static int replayed(int (*next)(void))
{
    while (next() && !ferror(stdout))
        ;
    if (ferror(stdin))
        return failed("a read failed");
    if (fflush(stdout) != 0 || ferror(stdout))
        return failed("a write failed");
    return 0;
}

int main(int count, char **words)
{
    /* so that a closed output is a write that fails */
    signal(SIGPIPE, SIG_IGN);
    for (unsigned i = 0; count == 2 && i < sizeof stages / sizeof *stages; i++)
        if (strcmp(words[1], stages[i].name) == 0)
            return replayed(stages[i].next);
    failed("it takes a stage: float, common, clipper, noise_gate, eq, tonestack, multiband_saturator, "
           "leveller, wave, wave_write, wave_head");
    return 2;
}
