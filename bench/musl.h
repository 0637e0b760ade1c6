/* musl's fused multiply-adds, by the names that bench/musl gives them. Its fmaf rounds a subnormal result twice:
 * 0x1.000002p-75 * 0x1.fffffcp-76 + 0x1.000004p-127 is nearest to c, and it gives 0x1.000008p-127. No row has
 * such operands. */
float musl_fmaf(float a, float b, float c);
double musl_fma(double a, double b, double c);
