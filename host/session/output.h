/* The files that are written: under a temporary name beside the asked one, which they get at the end. */
#ifndef SESSION_OUTPUT_H
#define SESSION_OUTPUT_H

#include "session.h"

/* Refuses a name that is the recording itself, or that another file of this session has. */
void output_named(const char *option, const char *name, const struct recording *recording);

/* Opens the file of that name, after all of them were named. */
FILE *output(const char *name);

/* Ends the program where writing to one of them, or to standard output, has failed. */
void outputs_written(void);

/* Closes all of them, and gives them the asked names. */
void outputs_done(void);

/* Removes those that have their temporary names: safe in a signal's handler. */
void outputs_removed(void);

/* Signals that end the program do so after outputs_removed. */
void outputs_guarded(void);

#endif
