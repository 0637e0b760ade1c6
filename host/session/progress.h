/* The progress line on a terminal. */
#ifndef SESSION_PROGRESS_H
#define SESSION_PROGRESS_H

#include <stdint.h>

/* From here on time counts. There is no such line where standard output writes one line, piece by piece, on
 * the same terminal. */
void progress_begins(int says_one_line);

/* Shows how much is done, now and then, where it takes longer than half a second. */
void progress(uint64_t done, uint64_t all);

/* Takes the line away, before something else is printed: safe in a signal's handler. */
void progress_hidden(void);

#endif
