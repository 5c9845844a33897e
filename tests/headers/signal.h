/* For x86-64: tests/headers/README.md says why. */
#ifndef STUB_SIGNAL_H
#define STUB_SIGNAL_H
#define SIGHUP 1
#define SIGINT 2
#define SIGUSR1 10
#define SIGPIPE 13
#define SIGTERM 15
#define SIG_BLOCK 0
#define SIG_IGN ((void (*)(int))1)
typedef int sig_atomic_t;
typedef struct {
    unsigned long bits[16];
} sigset_t;
struct sigaction {
    void (*sa_handler)(int);
    sigset_t sa_mask;
    int sa_flags;
    void (*sa_restorer)(void);
};
#define SA_ONSTACK 0x08000000
typedef struct {
    void *ss_sp;
    int ss_flags;
    unsigned long ss_size;
} stack_t;
int sigaltstack(const stack_t *, stack_t *);
int raise(int);
int sigaction(int, const struct sigaction *, struct sigaction *);
int sigprocmask(int, const sigset_t *, sigset_t *);
int sigemptyset(sigset_t *);
int sigaddset(sigset_t *, int);
int sigdelset(sigset_t *, int);
#endif
