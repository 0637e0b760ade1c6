/* What <time.h> has that this project uses, for a compiler that comes without C's headers. */
#define CLOCK_MONOTONIC 1
struct timespec {
    long tv_sec, tv_nsec;
};
int clock_gettime(int clock, struct timespec *now);
