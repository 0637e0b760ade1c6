/* How long it was quiet. */
#ifndef SESSION_QUIET_H
#define SESSION_QUIET_H

#include "session.h"

/* A block was done, whose first sample is given: with the gate as it was before, and the quiet count that the
 * library told. */
void quiet_heard(struct quiet *q, const hoofglaze_gate *before, uint64_t at, const float *input, size_t samples,
                 uint32_t told);

/* All samples of the recording, so many, were heard. */
void quiet_ends(struct quiet *q, uint64_t samples);

#endif
