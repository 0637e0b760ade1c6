/* The stages' steps in C, with the processor's fused multiply-add and root. */
#define fma32 __builtin_fmaf
#define fma64 __builtin_fma
#define root32 __builtin_sqrtf
#define OFFER hardware
#include "blocks.h"
