/* What C's <math.h> has that this project uses, for a compiler that comes without C's headers. */
float fmaf(float a, float b, float c);
double fma(double a, double b, double c);
float fabsf(float x);
double fabs(double x);
double exp(double x);
double pow(double x, double y);
double log10(double x);
double floor(double x);
double ceil(double x);
double sin(double x);
double cos(double x);
double sinh(double x);
double sqrt(double x);
float sqrtf(float x);
