/* The report: what is printed where nothing else is asked for. */
#ifndef SESSION_REPORT_H
#define SESSION_REPORT_H

#include "session.h"

/* The first lines, which the comparison has too. */
void report_recording(FILE *to, const struct session *s);
void report_equaliser(FILE *to, const struct session *s);

void report_begins(const struct session *s);
void report_span(const struct session *s, const struct span *p);
void report_ends(const struct session *s);

/* Says that an empty recording is one, and how to save what may lie behind. */
void report_empty(FILE *to, const struct session *s);

#endif
