/* The progress line: percent on standard error, where that is a terminal. */
#define _DEFAULT_SOURCE /* for the clock */
#include "progress.h"

#include <signal.h>
#include <stdio.h>
#include <time.h>
#include <unistd.h>

static int on_terminal;
static double next;
static volatile sig_atomic_t is_shown;

static double now(void)
{
    struct timespec t = {0, 0};
    clock_gettime(CLOCK_MONOTONIC, &t);
    return (double)t.tv_sec + (double)t.tv_nsec / 1e9;
}

void progress_begins(int says_one_line)
{
    on_terminal = isatty(2) && !(says_one_line && isatty(1));
    next = now() + 0.5;
}

void progress(uint64_t done, uint64_t all)
{
    if (!on_terminal || now() < next)
        return;
    next = now() + 0.2;
    is_shown = 1;
    fprintf(stderr, "\r%3.0f %% heard", 100.0 * (double)done / (double)all);
    fflush(stderr);
}

void progress_hidden(void)
{
    static const char blanks[] = "\r            \r";
    if (!is_shown)
        return;
    is_shown = 0;
    if (write(2, blanks, sizeof blanks - 1) < 0)
        return;
}
