/* The session program, which says what the gate meant to pass of a WAVE recording: what its files share. */
#ifndef SESSION_H
#define SESSION_H

#include <stdint.h>
#include <stdio.h>

#include "hoofglaze.h"

enum { BLOCK = 4096, BANDS = 16, MOST_RUNS = 16 };

/* Exit statuses: refused or failed, and used wrongly. */
enum { FAILED = 1, USAGE = 2 };

/* ---- what the command line asks for */

enum { THRESHOLD, RATIO, ATTACK, RELEASE, HOLD, SETTINGS };

/* The gate's settings in the units of the header. */
struct values {
    float of[SETTINGS];
};

struct equaliser {
    int asked;
    int is_set[BANDS];
    float decibels[BANDS];
};

struct asked {
    const char *file;
    struct values values;
    struct equaliser equaliser;
    const char *out, *picture, *labels, *json; /* names of files, or null */
    int says_labels, says_json;                /* on standard output, instead of the report */
    int runs;                                  /* those of --compare, or 0 */
    struct values compared[MOST_RUNS];
};

/* ---- the recording */

struct recording {
    const char *name; /* as given */
    int file;
    const uint8_t *bytes;
    size_t size;
    const uint8_t *first; /* of its samples */
    uint64_t samples;
    uint32_t rate;
};

/* ---- where the gate aimed open */

struct span {
    uint64_t from, to; /* the first sample, and the first one after */
};

struct passage {
    int is_open;
    struct span last; /* while it is open, its end isn't known yet */
    uint64_t first;   /* the first sample of all that were aimed open */
    uint64_t spans, open;
};

/* ---- how long it was quiet: no sample of a quiet stretch is loud */

struct quiet {
    struct span longest; /* both ends are 0 where there is none */
    uint64_t now;        /* the library's count: samples since the latest loud one, or since the start */
};

/* A gate, what the library told of its hold in samples, what it aimed open at so far, and how long it was
 * quiet. */
struct run {
    struct values values;
    hoofglaze_gate gate;
    hoofglaze_truncation hold;
    struct passage passage;
    struct quiet quiet;
};

struct session {
    const struct asked *asked;
    struct recording recording;
    int runs;
    struct run run[MOST_RUNS];
    hoofglaze_eq equaliser;
    FILE *report, *labels, *json, *out, *picture; /* those that are wanted; the others are null */
};

#endif
