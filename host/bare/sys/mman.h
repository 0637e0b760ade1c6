/* What <sys/mman.h> has that this project uses, for a compiler that comes without C's headers; the numbers
 * are those of x86-64 Linux. */
#define PROT_NONE 0
#define PROT_READ 1
#define PROT_WRITE 2
#define MAP_SHARED 0x01
#define MAP_PRIVATE 0x02
#define MAP_FIXED 0x10
#define MAP_ANONYMOUS 0x20
#define MAP_NORESERVE 0x4000
#define MAP_FAILED ((void *)-1)
void *mmap(void *at, __SIZE_TYPE__ bytes, int protection, int flags, int file, long from);
#define MADV_DONTNEED 4
int madvise(void *at, __SIZE_TYPE__ bytes, int advice);
int munmap(void *at, __SIZE_TYPE__ bytes);
int memfd_create(const char *name, unsigned flags);
