/* What <unistd.h> has that this project uses, for a compiler that comes without C's headers. */
int close(int file);
int dup(int file);
int ftruncate(int file, long bytes);
#define W_OK 2
typedef long ssize_t;
ssize_t write(int file, const void *from, __SIZE_TYPE__ bytes);
ssize_t readlink(const char *path, char *to, __SIZE_TYPE__ room);
int access(const char *path, int how);
int unlink(const char *path);
int isatty(int file);
_Noreturn void _exit(int status);
