/*
 * Counts the instructions of this process by single steps: with the trap flag set, an x86-64 processor raises a trap behind each
 * instruction. A string instruction (rep) traps once a turn but stays where it stands, so it counts once.
 */
#include <signal.h>
#include <ucontext.h>

#include "bench.h"

static volatile unsigned long steps;
static volatile long long place;
static unsigned long none; /* the steps of counting nothing */

static void step(int signal, siginfo_t *info, void *context)
{
    (void)signal;
    (void)info;
    long long now = ((ucontext_t *)context)->uc_mcontext.gregs[REG_RIP];
    steps += now != place;
    place = now;
}

/* The flags go over the stack, past what a function may keep below its end. */
#define CHANGE_FLAGS(how) \
    __asm__ volatile("lea -128(%%rsp), %%rsp\n\tpushfq\n\t" how ", (%%rsp)\n\tpopfq\n\tlea 128(%%rsp), %%rsp" : : : "memory", "cc")

void count_start(void)
{
    steps = 0;
    CHANGE_FLAGS("orq $0x100");
}

unsigned long count_stop(void)
{
    CHANGE_FLAGS("andq $~0x100");
    return steps - none;
}

int count_begin(void)
{
    struct sigaction on_step = {step, {{0}}, SA_SIGINFO, 0};
    if (sigaction(SIGTRAP, &on_step, 0) != 0)
        return 0;
    none = 0;
    count_start();
    none = count_stop();
    return none != 0;
}
