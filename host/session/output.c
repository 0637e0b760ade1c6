/* The files that are written. A link is followed; what is there and no regular file, as /dev/null, is written
 * to as it is. */
#define _GNU_SOURCE
#include "output.h"

#include <errno.h>
#include <fcntl.h>
#include <signal.h>
#include <stdlib.h>
#include <string.h>
#include <sys/stat.h>
#include <unistd.h>

#include "progress.h"
#include "words.h"

enum { MOST_OUTPUTS = 4, PATH = 4096, MOST_LINKS = 40 };

struct output {
    const char *asked;
    char path[PATH]; /* where the asked name leads */
    char temporary[PATH];
    volatile sig_atomic_t has_temporary;
    FILE *stream;
};

static struct output outputs[MOST_OUTPUTS];
static int count;

/* ---- names */

static void joined(char *path, size_t folder, const char *name, const char *asked)
{
    size_t bytes = strlen(name);
    if (folder + bytes >= PATH) {
        errno = ENAMETOOLONG;
        stop_failed(asked);
    }
    memcpy(path + folder, name, bytes + 1);
}

/* The bytes of a path up to its last slash, with it. */
static size_t folder_of(const char *path)
{
    const char *slash = strrchr(path, '/');
    return slash ? (size_t)(slash - path) + 1 : 0;
}

/* Where the name leads: what it is a link to, if that isn't there yet too. The link of a pipe, as /dev/stdout
 * may be, says no path. */
static void followed(struct output *o)
{
    struct stat is;
    char to[PATH];
    joined(o->path, 0, o->asked, o->asked);
    if (stat(o->path, &is) == 0 && !S_ISREG(is.st_mode))
        return;
    for (int links = 0; lstat(o->path, &is) == 0 && S_ISLNK(is.st_mode); links++) {
        ssize_t bytes = readlink(o->path, to, sizeof to - 1);
        if (bytes < 0 || links == MOST_LINKS) {
            errno = bytes < 0 ? errno : ELOOP;
            stop_failed(o->asked);
        }
        to[bytes] = 0;
        joined(o->path, to[0] == '/' ? 0 : folder_of(o->path), to, o->asked);
    }
}

static int same_file(const struct stat *a, const struct stat *b)
{
    return a->st_dev == b->st_dev && a->st_ino == b->st_ino;
}

/* Whether both lead to one file: by what is there, or where nothing is, by folder and name. */
static int same_place(const struct output *a, const struct output *b)
{
    struct stat of_a, of_b;
    char folder[PATH];
    if (stat(a->path, &of_a) == 0 || stat(b->path, &of_b) == 0)
        return stat(a->path, &of_a) == 0 && stat(b->path, &of_b) == 0 && same_file(&of_a, &of_b);
    if (strcmp(a->path + folder_of(a->path), b->path + folder_of(b->path)) != 0)
        return 0;
    memcpy(folder, a->path, folder_of(a->path));
    joined(folder, folder_of(a->path), ".", a->asked);
    if (stat(folder, &of_a) != 0)
        return strcmp(a->path, b->path) == 0;
    memcpy(folder, b->path, folder_of(b->path));
    joined(folder, folder_of(b->path), ".", b->asked);
    return stat(folder, &of_b) == 0 && same_file(&of_a, &of_b);
}

void output_named(const char *option, const char *name, const struct recording *recording)
{
    struct output *o = &outputs[count];
    struct stat there, read;
    if (!name)
        return;
    o->asked = name;
    followed(o);
    if (stat(o->path, &there) == 0 && fstat(recording->file, &read) == 0 && same_file(&there, &read))
        stop(USAGE, "--%s: %s is the recording itself", option, shown(name));
    for (int i = 0; i < count; i++)
        if (same_place(&outputs[i], o))
            stop(USAGE, "--%s: %s is named twice", option, shown(name));
    count++;
}

/* ---- signals */

void outputs_removed(void)
{
    for (int i = 0; i < count; i++)
        if (outputs[i].has_temporary)
            unlink(outputs[i].temporary);
}

static void ended_by(int number)
{
    progress_hidden();
    outputs_removed();
    signal(number, SIG_DFL);
    raise(number);
}

static const int ending[] = {SIGINT, SIGTERM, SIGHUP, SIGQUIT};

void outputs_guarded(void)
{
    for (size_t i = 0; i < sizeof ending / sizeof *ending; i++)
        if (signal(ending[i], ended_by) == SIG_IGN)
            signal(ending[i], SIG_IGN);
    signal(SIGPIPE, SIG_IGN);
    signal(SIGXFSZ, SIG_IGN);
}

/* While a file has its temporary name and is not yet known to have it, or the other way round. */
static void signals_wait(int how)
{
    sigset_t set;
    sigemptyset(&set);
    for (size_t i = 0; i < sizeof ending / sizeof *ending; i++)
        sigaddset(&set, ending[i]);
    sigprocmask(how, &set, 0);
}

/* ---- opening and closing */

/* With the rights that the file has which it takes the place of, or that a new one gets. */
static void with_rights(int file, const struct stat *there)
{
    mode_t mask = umask(0);
    umask(mask);
    fchmod(file, there ? there->st_mode & 0777 : 0666 & ~mask);
}

static int opened_beside(struct output *o, const struct stat *there)
{
    memcpy(o->temporary, o->path, folder_of(o->path));
    joined(o->temporary, folder_of(o->path), ".hoofglaze-XXXXXX", o->asked);
    signals_wait(SIG_BLOCK);
    int file = mkstemp(o->temporary);
    o->has_temporary = file >= 0;
    signals_wait(SIG_UNBLOCK);
    if (file >= 0)
        with_rights(file, there);
    return file;
}

/* Standard output or error by a name, as /dev/stdout: a file there must not take its place. */
static int standard(const struct stat *there)
{
    struct stat is;
    for (int i = 1; i <= 2; i++)
        if (fstat(i, &is) == 0 && same_file(there, &is))
            return dup(i);
    return -1;
}

static int opened(struct output *o)
{
    struct stat there;
    int file;
    if (stat(o->path, &there) != 0)
        return opened_beside(o, 0);
    file = standard(&there);
    if (file >= 0)
        return file;
    if (!S_ISREG(there.st_mode))
        return open(o->path, O_WRONLY | O_CLOEXEC);
    return access(o->path, W_OK) == 0 ? opened_beside(o, &there) : -1;
}

FILE *output(const char *name)
{
    struct output *o = outputs;
    int file;
    if (!name)
        return 0;
    while (o->asked != name)
        o++;
    file = opened(o);
    o->stream = file < 0 ? 0 : fdopen(file, "wb");
    if (!o->stream)
        stop_failed(name);
    return o->stream;
}

void outputs_written(void)
{
    if (ferror(stdout))
        stop_failed("standard output");
    for (int i = 0; i < count; i++)
        if (ferror(outputs[i].stream))
            stop_failed(outputs[i].asked);
}

void outputs_done(void)
{
    outputs_written();
    if (fflush(stdout) != 0)
        stop_failed("standard output");
    for (int i = 0; i < count; i++)
        if (fclose(outputs[i].stream) != 0)
            stop_failed(outputs[i].asked);
    for (int i = 0; i < count; i++) {
        if (!outputs[i].has_temporary)
            continue;
        signals_wait(SIG_BLOCK);
        if (rename(outputs[i].temporary, outputs[i].path) != 0)
            stop_failed(outputs[i].asked);
        outputs[i].has_temporary = 0;
        signals_wait(SIG_UNBLOCK);
    }
}
