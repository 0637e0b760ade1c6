/* The recording: mapped, so that the library's reader has it whole, and given back page by page behind the
 * samples that were heard. */
#define _GNU_SOURCE
#include "recording.h"

#include <errno.h>
#include <fcntl.h>
#include <signal.h>
#include <stdlib.h>
#include <string.h>
#include <sys/mman.h>
#include <sys/stat.h>
#include <unistd.h>

#include "output.h"
#include "pcm.h"
#include "progress.h"
#include "refusals.h"
#include "words.h"

/* A page of a file that has become shorter can't be read. */
static void became_shorter(int number)
{
    static const char words[] =
        "hoofglaze: the recording became shorter while it was read, or its disk failed\n";
    (void)number;
    progress_hidden();
    outputs_removed();
    ssize_t told = write(2, words, sizeof words - 1);
    (void)told;
    _Exit(FAILED);
}

static int opened(const char *name, struct stat *is)
{
    int file = open(name, O_RDONLY | O_NONBLOCK | O_CLOEXEC);
    if (file < 0 && errno == ENOENT)
        stop(FAILED, "%s: no such file", shown(name));
    if (file < 0 && errno == EACCES)
        stop(FAILED, "%s: can't be read", shown(name));
    if (file < 0 || fstat(file, is) != 0)
        stop_failed(name);
    if (S_ISDIR(is->st_mode))
        stop(FAILED, "%s: a directory", shown(name));
    if (!S_ISREG(is->st_mode))
        stop(FAILED, "%s: no regular file: keep what it gives in a file first", shown(name));
    return file;
}

struct recording recording_of(const char *name)
{
    struct stat is;
    struct recording r = {.name = name, .file = opened(name, &is)};
    r.size = (size_t)is.st_size;
    signal(SIGBUS, became_shorter);
    if (r.size > 0) {
        void *all = mmap(0, r.size, PROT_READ, MAP_PRIVATE, r.file, 0);
        if (all == MAP_FAILED)
            stop_failed(name);
        r.bytes = all;
    }
    hoofglaze_wave found = hoofglaze_wave_read(r.bytes, r.size);
    if (found.number)
        refused(&r, found.number);
    r.first = r.bytes + found.place;
    r.samples = found.length / 2;
    r.rate = found.rate;
    return r;
}

/* A megabyte at a time, up to the page that is being heard. */
static void give_back(const struct recording *r, size_t upto)
{
    static size_t from;
    const size_t step = (size_t)1 << 20;
    upto -= upto % step;
    if (upto <= from)
        return;
    madvise((void *)(r->bytes + from), upto - from, MADV_DONTNEED);
    from = upto;
}

void hear(const struct recording *r, uint64_t from, size_t samples, float *to)
{
    const uint8_t *bytes = r->first + 2 * from;
    for (size_t i = 0; i < samples; i++)
        to[i] = heard(bytes[2 * i], bytes[2 * i + 1]);
    give_back(r, (size_t)(bytes - r->bytes));
}

void heard_whole(const struct recording *r)
{
    struct stat is;
    if (fstat(r->file, &is) != 0)
        stop_failed(r->name);
    if ((uint64_t)is.st_size < r->size)
        stop(FAILED, "%s became shorter while it was read", shown(r->name));
}

uint64_t bytes_behind(const struct recording *r)
{
    return r->samples ? 0 : r->size - (size_t)(r->first - r->bytes);
}
