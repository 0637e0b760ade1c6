/* Words for what goes wrong, and names and numbers as people read them. */
#include "words.h"

#include <errno.h>
#include <stdarg.h>
#include <stdlib.h>
#include <string.h>

#include "output.h"
#include "progress.h"

void stop(int status, const char *format, ...)
{
    va_list words;
    progress_hidden();
    fputs("hoofglaze: ", stderr);
    va_start(words, format);
    vfprintf(stderr, format, words);
    va_end(words);
    fputc('\n', stderr);
    outputs_removed();
    _Exit(status);
}

void stop_failed(const char *name)
{
    stop(FAILED, "%s: %s", shown(name), strerror(errno));
}

/* How many bytes a character has that begins with this one; 0 where none does. */
static size_t bytes_from(unsigned char first)
{
    if (first < 0x80)
        return 1;
    if (first < 0xe0)
        return first < 0xc0 ? 0 : 2;
    if (first < 0xf0)
        return 3;
    return first < 0xf8 ? 4 : 0;
}

size_t character(const char *text)
{
    static const unsigned least[5] = {0, 0, 0x80, 0x800, 0x10000};
    unsigned char first = (unsigned char)text[0];
    size_t length = bytes_from(first);
    unsigned value = length < 2 ? first : first & (0x7fu >> length);
    for (size_t i = 1; i < length; i++) {
        if (((unsigned char)text[i] & 0xc0) != 0x80)
            return 0;
        value = value << 6 | ((unsigned char)text[i] & 0x3f);
    }
    int is_surrogate = value >= 0xd800 && value < 0xe000;
    return length && value >= least[length] && value < 0x110000 && !is_surrogate ? length : 0;
}

const char *shown(const char *text)
{
    static char rooms[4][512];
    static int next;
    char *room = rooms[next++ % 4];
    size_t at = 0;
    for (size_t i = 0; text[i]; i++) {
        if (at == sizeof *rooms - 4)
            return memcpy(room + at, "..", 3), room;
        unsigned char c = (unsigned char)text[i];
        room[at++] = c < 0x20 || c == 0x7f ? '?' : (char)c;
    }
    room[at] = 0;
    return room;
}

const char *base_name(const char *path)
{
    const char *slash = strrchr(path, '/');
    return slash && slash[1] ? slash + 1 : path;
}

const char *thousands(uint64_t n)
{
    static char rooms[4][32];
    static int next;
    char *at = rooms[next++ % 4] + sizeof *rooms - 1;
    *at = 0;
    for (int digits = 0; digits == 0 || n > 0; digits++, n /= 10) {
        if (digits > 0 && digits % 3 == 0)
            *--at = ',';
        *--at = (char)('0' + n % 10);
    }
    return at;
}

const char *plural(uint64_t n)
{
    return n == 1 ? "" : "s";
}

double milliseconds(const struct recording *r, uint64_t sample)
{
    return (double)sample * 1000 / r->rate;
}

double percent(uint64_t part, uint64_t whole)
{
    return whole ? 100.0 * (double)part / (double)whole : 0;
}
