/* What C's <signal.h> has that this project uses, for a compiler that comes without C's headers. */
#define SIGHUP 1
#define SIGINT 2
#define SIGQUIT 3
#define SIGTRAP 5
#define SIGBUS 7
#define SIGSEGV 11
#define SIGPIPE 13
#define SIGTERM 15
#define SIGXFSZ 25
#define SIG_DFL ((void (*)(int))0)
#define SIG_IGN ((void (*)(int))1)
typedef int sig_atomic_t;
void (*signal(int number, void (*handler)(int)))(int);
int raise(int number);

/* As the C library on x86-64 Linux lays them out. */
#define SA_ONSTACK 0x08000000
struct sigaction {
    void (*sa_handler)(int);
    unsigned long sa_mask[16];
    int sa_flags;
    void (*sa_restorer)(void);
};
typedef struct {
    void *ss_sp;
    int ss_flags;
    __SIZE_TYPE__ ss_size;
} stack_t;
int sigaction(int number, const struct sigaction *now, struct sigaction *before);
#define SIG_BLOCK 0
#define SIG_UNBLOCK 1
typedef struct {
    unsigned long bits[16];
} sigset_t;
int sigemptyset(sigset_t *set);
int sigaddset(sigset_t *set, int number);
int sigprocmask(int how, const sigset_t *set, sigset_t *before);
int sigaltstack(const stack_t *now, stack_t *before);
