/* The stages' steps in C, with musl's soft fused multiply-add and the processor's root, which is musl's too. */
#include "../musl.h"

#define fma32 musl_fmaf
#define fma64 musl_fma
#define root32 __builtin_sqrtf
#define OFFER musl
#include "blocks.h"
