/* What freebsd.c of the player takes of FreeBSD's headers, and tracehost-cc's haven't: only declarations, from the manual pages. */
#ifndef FREEBSD_STAND_IN_H
#define FREEBSD_STAND_IN_H
#include <sys/types.h>
#include <sys/wait.h>

#define SHM_ANON ((char *)1) /* shm_open(2) */

#define PROC_REAP_ACQUIRE 2 /* procctl(2) */
#define PROC_REAP_KILL 6
#define PROC_PDEATHSIG_CTL 11
struct procctl_reaper_kill {
    int rk_sig;
    unsigned rk_flags;
    pid_t rk_subtree;
    unsigned rk_killed;
    pid_t rk_fpid;
};

#define KERN_PROC_PROC 8 /* sysctl(3) */
int sysctlbyname(const char *, void *, size_t *, const void *, size_t);

struct rtprio;
struct thr_param { /* thr_new(2) */
    void (*start_func)(void *);
    void *arg;
    char *stack_base;
    size_t stack_size;
    char *tls_base;
    size_t tls_size;
    long *child_tid;
    long *parent_tid;
    int flags;
    struct rtprio *rtp;
};
int thr_new(struct thr_param *, int);
void thr_exit(long *);
#endif
