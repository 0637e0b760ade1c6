/* The stages' steps in C, with the library's fused multiply-add and root rendered in C. */
#include "../rendering.h"

#define fma32 rendered_fma32
#define fma64 rendered_fma64
#define root32 rendered_root32
#define OFFER soft
#include "blocks.h"
