/* One JSON object, on one line. */
#ifndef SESSION_JSON_H
#define SESSION_JSON_H

#include "session.h"

void json_begins(const struct session *s);
void json_span(const struct session *s, const struct span *p);
void json_ends(const struct session *s);

#endif
