/* The run over the recording: one pass, in blocks. */
#ifndef SESSION_RUN_H
#define SESSION_RUN_H

#include "session.h"

void run(struct session *s);

#endif
