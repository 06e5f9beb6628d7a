/* The host's <signal.h>, with FreeBSD's numbers. */
#include_next <signal.h>
#ifndef TRACEHOST_SIGNAL_H
#define TRACEHOST_SIGNAL_H

#include <tracehost/ucontext.h>

#undef SIGHUP
#undef SIGINT
#undef SIGQUIT
#undef SIGILL
#undef SIGTRAP
#undef SIGABRT
#undef SIGIOT
#undef SIGFPE
#undef SIGKILL
#undef SIGBUS
#undef SIGSEGV
#undef SIGSYS
#undef SIGPIPE
#undef SIGALRM
#undef SIGTERM
#undef SIGURG
#undef SIGSTOP
#undef SIGTSTP
#undef SIGCONT
#undef SIGCHLD
#undef SIGCLD
#undef SIGTTIN
#undef SIGTTOU
#undef SIGIO
#undef SIGPOLL
#undef SIGXCPU
#undef SIGXFSZ
#undef SIGVTALRM
#undef SIGPROF
#undef SIGWINCH
#undef SIGUSR1
#undef SIGUSR2
#undef SIGPWR
#undef SIGSTKFLT
#define SIGHUP 1
#define SIGINT 2
#define SIGQUIT 3
#define SIGILL 4
#define SIGTRAP 5
#define SIGABRT 6
#define SIGIOT SIGABRT
#define SIGEMT 7
#define SIGFPE 8
#define SIGKILL 9
#define SIGBUS 10
#define SIGSEGV 11
#define SIGSYS 12
#define SIGPIPE 13
#define SIGALRM 14
#define SIGTERM 15
#define SIGURG 16
#define SIGSTOP 17
#define SIGTSTP 18
#define SIGCONT 19
#define SIGCHLD 20
#define SIGTTIN 21
#define SIGTTOU 22
#define SIGIO 23
#define SIGXCPU 24
#define SIGXFSZ 25
#define SIGVTALRM 26
#define SIGPROF 27
#define SIGWINCH 28
#define SIGINFO 29
#define SIGUSR1 30
#define SIGUSR2 31
/* No signal above 31 is in the model: EINVAL. */
#undef NSIG
#undef SIGRTMIN
#undef SIGRTMAX
#define NSIG 32
#define SIGTHR 32
#define SIGLWP SIGTHR
#define SIGLIBRT 33
#define SIGRTMIN 65
#define SIGRTMAX 126

#undef SA_ONSTACK
#undef SA_RESTART
#undef SA_RESETHAND
#undef SA_NOCLDSTOP
#undef SA_NODEFER
#undef SA_NOCLDWAIT
#undef SA_SIGINFO
#define SA_ONSTACK 0x0001
#define SA_RESTART 0x0002
#define SA_RESETHAND 0x0004
#define SA_NOCLDSTOP 0x0008
#define SA_NODEFER 0x0010
#define SA_NOCLDWAIT 0x0020
#define SA_SIGINFO 0x0040

#undef SS_DISABLE
#undef MINSIGSTKSZ
#undef SIGSTKSZ
#define SS_DISABLE 4
#define MINSIGSTKSZ 16384 /* FreeBSD's is smaller: the runtime needs room there */
#define SIGSTKSZ 65536

#undef SIG_BLOCK
#undef SIG_UNBLOCK
#undef SIG_SETMASK
#define SIG_BLOCK 1
#define SIG_UNBLOCK 2
#define SIG_SETMASK 3

#define SIGISMEMBER(set, n) (sigismember(&(set), n) == 1)
#define SIGADDSET(set, n) sigaddset(&(set), n)
#define SIGDELSET(set, n) sigdelset(&(set), n)
#define SIGEMPTYSET(set) sigemptyset(&(set))

/* Codes of siginfo_t. The other ones of faults and traps have the host's numbers, by the same names. */
#undef FPE_INTOVF
#undef FPE_INTDIV
#define FPE_INTOVF 1
#define FPE_INTDIV 2
#undef SI_USER
#undef SI_QUEUE
#undef SI_TIMER
#undef SI_ASYNCIO
#undef SI_MESGQ
#undef SI_KERNEL
#define SI_NOINFO 0
#define SI_USER 0x10001
#define SI_QUEUE 0x10002
#define SI_TIMER 0x10003
#define SI_ASYNCIO 0x10004
#define SI_MESGQ 0x10005
#define SI_KERNEL 0x10006
#define SI_LWP 0x10007

typedef void (*sig_t)(int);

#endif
