/* What the checks of recordings share: a reader's answer held to what it must be, and files without end. */
#ifndef WAVE_H
#define WAVE_H

#include "checks.h"
#include "hoofglaze.h"

/* The four numbers of an answer; the operands are for the message. */
void check_wave(const char *call, hoofglaze_wave given, hoofglaze_wave said, uint64_t a, uint64_t b);

/* What the library says of a lent file, and what the steps in C say of it; who touches more is named. */
void check_readers(const char *file, hoofglaze_wave said, const uint8_t *lent, size_t bytes);

/* A file that was good before a few of its bytes were changed and it was perhaps cut. */
enum { LONGEST_FILE = 512 };
size_t draw_file(uint8_t bytes[LONGEST_FILE]);

void large_checks(void);
void mutated_checks(void);

#endif
