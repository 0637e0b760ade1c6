/* Several thresholds or holds side by side. */
#ifndef SESSION_COMPARE_H
#define SESSION_COMPARE_H

#include "session.h"

/* The last span of the run of that index has ended. */
void compare_span(const struct session *s, int run);

void compare_ends(const struct session *s);

#endif
