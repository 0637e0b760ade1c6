/* Words for what goes wrong, and names and numbers as people read them. */
#ifndef SESSION_WORDS_H
#define SESSION_WORDS_H

#include "session.h"

/* Says it on standard error, leaves no temporary file and ends the program. */
_Noreturn void stop(int status, const char *format, ...) __attribute__((format(printf, 2, 3)));

/* The same for a call of the system's that failed: its own words come behind. */
_Noreturn void stop_failed(const char *name);

/* A name or value as it can be shown on a terminal: at most four of them at a time. */
const char *shown(const char *text);

/* What is behind the last slash. */
const char *base_name(const char *path);

/* The bytes of the UTF-8 character that the text begins with, or 0 where it begins with none. */
size_t character(const char *text);

/* 59,596: at most four of them at a time. */
const char *thousands(uint64_t n);

/* "" for one, "s" for any other number. */
const char *plural(uint64_t n);

double milliseconds(const struct recording *r, uint64_t sample);
double percent(uint64_t part, uint64_t whole);

#endif
