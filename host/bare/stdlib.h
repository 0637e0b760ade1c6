/* What C's <stdlib.h> has that this project uses, for a compiler that comes without C's headers. */
unsigned long strtoul(const char *from, char **end, int base);
double strtod(const char *from, char **end);
int mkstemp(char *name);
_Noreturn void _Exit(int status);
