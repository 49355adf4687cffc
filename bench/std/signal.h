#ifndef STD_SIGNAL_H
#define STD_SIGNAL_H
#include <stddef.h>
#define SIGTRAP 5
#define SA_SIGINFO 4
typedef struct siginfo siginfo_t;
typedef struct { unsigned long bits[16]; } sigset_t;
struct sigaction {
    void (*sa_sigaction)(int signal, siginfo_t *info, void *context);
    sigset_t sa_mask;
    int sa_flags;
    void (*sa_restorer)(void);
};
int sigaction(int signal, const struct sigaction *action, struct sigaction *before);
#endif
