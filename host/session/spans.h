/* What is done with a span when it ends. */
#ifndef SESSION_SPANS_H
#define SESSION_SPANS_H

#include "session.h"

/* The run's last span has come to its end: it is counted, and told where it is wanted. */
void span_ended(struct session *s, struct run *r);

#endif
