/* The reader's refusals in words. */
#ifndef SESSION_REFUSALS_H
#define SESSION_REFUSALS_H

#include "session.h"

/* Says why the recording is refused by that number and what to do, and ends the program. */
_Noreturn void refused(const struct recording *r, uint32_t number);

/* What saves the sound of a recording whose sizes are wrong. */
extern const char *const saving;

#endif
