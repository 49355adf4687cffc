#ifndef STD_UCONTEXT_H
#define STD_UCONTEXT_H
#include <stddef.h>
#define REG_RIP 16
typedef struct { void *ss_sp; int ss_flags; size_t ss_size; } stack_t;
typedef struct { long long gregs[23]; } mcontext_t;
typedef struct ucontext { unsigned long uc_flags; struct ucontext *uc_link; stack_t uc_stack; mcontext_t uc_mcontext; } ucontext_t;
#endif
