/* FreeBSD's process calls, answered by a model: in front of each file of a program (-include, by tracehost-cc).
 *
 * Signals, wait's options and ptrace's constants have FreeBSD's numbers, errnos the host's. The calls below have other
 * names for the linker; the broker, tracehost-run, makes them steps of the model. All else stays the C library's. */
#ifndef TRACEHOST_POSIX_H
#define TRACEHOST_POSIX_H

#include <features.h>
#ifndef __GLIBC__
#error "tracehost-posix needs the GNU C library: compile with the system's cc"
#endif
#if !defined(__linux__) || !defined(__x86_64__)
#error "tracehost-posix needs Linux on x86-64"
#endif

#ifndef __ASSEMBLER__
#include <tracehost/names.h>
#include <tracehost/reported.h>
/* What a program looks up by name is held too, and what it loads is looked at. */
#pragma redefine_extname dlsym tracehost_dlsym
#pragma redefine_extname dlvsym tracehost_dlvsym
#pragma redefine_extname dlopen tracehost_dlopen

#include <fcntl.h>
#include <poll.h>
#include <pthread.h>
#include <sched.h>
#include <semaphore.h>
#include <signal.h>
#include <spawn.h>
#include <stdio.h>
#include <stdlib.h>
#include <string.h>
#include <sys/param.h>
#include <sys/resource.h>
#include <sys/select.h>
#include <sys/socket.h>
#include <sys/time.h>
#include <sys/types.h>
#include <sys/wait.h>
#include <time.h>
#include <unistd.h>

/* The runtime looks for one of these. */
#ifdef __cplusplus
extern "C" const char tracehost_cplusplus;
__attribute__((section("tracehost_units"), used)) static const char *const tracehost_unit = &tracehost_cplusplus;
#else
__attribute__((section("tracehost_units"), used)) static const char *const tracehost_unit = "";
#endif

/* ---- FreeBSD's small words */

#ifndef __dead2
#define __dead2 __attribute__((__noreturn__))
#endif
#ifndef __unused
#define __unused __attribute__((__unused__))
#endif
#ifndef __printflike
#define __printflike(format, first) __attribute__((__format__(__printf__, format, first)))
#endif
#ifndef nitems
#define nitems(x) (sizeof(x) / sizeof((x)[0]))
#endif
typedef int lwpid_t;

/* ---- calls of FreeBSD's that the host doesn't have */

#ifdef __cplusplus
extern "C" {
#endif
struct __wrusage { struct rusage wru_self, wru_children; };
pid_t wait6(idtype_t, id_t, int *, int, struct __wrusage *, siginfo_t *);
int thr_self(long *);
int thr_kill(long, int);
int pthread_getthreadid_np(void);
void pthread_yield_np(void);
int pthread_attr_get_np(pthread_t, pthread_attr_t *);
int pthread_peekjoin_np(pthread_t, void **);
int pthread_main_np(void);
int pthread_mutex_isowned_np(pthread_mutex_t *);
int sem_clockwait_np(sem_t *, clockid_t, int, const struct timespec *, struct timespec *);
int thr_kill2(pid_t, long, int);
int xsi_sigpause(int);
int execvP(const char *, const char *, char *const *);
void closefrom(int);
int tracehost_sigpause(int);
void tracehost_compute(void); /* no call: as if the thread had computed for long, others go on, and signals are met */
#if !__GLIBC_PREREQ(2, 38)
size_t strlcpy(char *, const char *, size_t);
size_t strlcat(char *, const char *, size_t);
#endif
const char *getprogname(void);
void setprogname(const char *);
void setproctitle(const char *, ...);
long long strtonum(const char *, long long, long long, const char **);
#ifdef __cplusplus
}
#endif
#undef sigpause /* FreeBSD's takes a mask */
#define sigpause tracehost_sigpause
#undef pthread_yield
#define pthread_yield sched_yield
#endif /* a source in assembly has no calls that are renamed */

#ifdef TRACEHOST_FREEBSD /* tracehost-cc --freebsd: the host's headers above are still for the host */
#include <osreldate.h>
#define __FreeBSD__ 14
#undef __linux__
#undef __linux
#undef linux
#undef __gnu_linux__
#endif

#endif
