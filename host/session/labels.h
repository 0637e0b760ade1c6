/* An Audacity label track. */
#ifndef SESSION_LABELS_H
#define SESSION_LABELS_H

#include "session.h"

void labels_span(const struct session *s, const struct span *p);

#endif
