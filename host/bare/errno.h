/* What C's <errno.h> has that this project uses, for a compiler that comes without C's headers; the numbers
 * are those of x86-64 Linux. */
#define ENOENT 2
#define EACCES 13
#define ENAMETOOLONG 36
#define ELOOP 40
int *__errno_location(void);
#define errno (*__errno_location())
