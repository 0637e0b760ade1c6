/* What <sys/stat.h> has that this project uses, for a compiler that comes without C's headers; laid out as
 * the C library on x86-64 Linux has it. */
typedef unsigned mode_t;
struct stat {
    unsigned long st_dev, st_ino, st_nlink;
    mode_t st_mode;
    unsigned st_uid, st_gid, padding;
    unsigned long st_rdev;
    long st_size, st_blksize, st_blocks;
    long times[6], reserved[3];
};
#define S_ISDIR(mode) (((mode)&0170000) == 0040000)
#define S_ISREG(mode) (((mode)&0170000) == 0100000)
#define S_ISLNK(mode) (((mode)&0170000) == 0120000)
int stat(const char *path, struct stat *is);
int lstat(const char *path, struct stat *is);
int fstat(int file, struct stat *is);
int fchmod(int file, mode_t mode);
mode_t umask(mode_t mask);
