/* The library's float functions rendered in C. */
#include "hoofglaze.h"

float rendered_fma32(float a, float b, float c);
double rendered_fma64(double a, double b, double c);
float rendered_root32(float x);
float rendered_size32(float x);
double rendered_size64(double x);
hoofglaze_truncation rendered_truncated(float x);
float rendered_narrowed(double x);
