/* What <fcntl.h> has that this project uses, for a compiler that comes without C's headers; the numbers are
 * those of x86-64 Linux. */
#define O_RDONLY 0
#define O_WRONLY 1
#define O_NONBLOCK 04000
#define O_CLOEXEC 02000000
#define F_GETFD 1
int open(const char *path, int flags, ...);
int fcntl(int file, int command, ...);
