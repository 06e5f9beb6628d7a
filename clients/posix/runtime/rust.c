/* Calls of Rust's own library (include/tracehost/rust.h). It is compiled for the host, so its numbers are the host's. */
#define _GNU_SOURCE
#include <spawn.h>
#include <stdarg.h>
#include <sys/syscall.h>
#include <unistd.h>
#include "freebsd.h"
#include "runtime.h"

int tracehost_clock_nanosleep(clockid_t, int, const struct timespec *, struct timespec *);
int tracehost_pthread_sigmask(int, const sigset_t *, sigset_t *);
long tracehost_syscall(long, ...);

static clockid_t number_of(clockid_t clock) { return clock == CLOCK_MONOTONIC ? BSD_CLOCK_MONOTONIC : BSD_CLOCK_REALTIME; }

int tracehost_rust_clock_gettime(clockid_t clock, struct timespec *to) { return tracehost_clock_gettime(number_of(clock), to); }

int tracehost_rust_clock_nanosleep(clockid_t clock, int flags, const struct timespec *time, struct timespec *left)
{
	return tracehost_clock_nanosleep(number_of(clock), flags, time, left);
}

int tracehost_rust_posix_spawnattr_setflags(posix_spawnattr_t *attributes, short flags)
{
	const int others = flags & ~(POSIX_SPAWN_SETSIGDEF | POSIX_SPAWN_SETSIGMASK);
	const int signals =
		(flags & POSIX_SPAWN_SETSIGDEF ? BSD_SPAWN_SETSIGDEF : 0) | (flags & POSIX_SPAWN_SETSIGMASK ? BSD_SPAWN_SETSIGMASK : 0);
	return posix_spawnattr_setflags(attributes, (short)(others | signals));
}

int tracehost_rust_pthread_sigmask(int how, const sigset_t *set, sigset_t *old)
{
	const int number = how == SIG_BLOCK ? BSD_SIG_BLOCK : how == SIG_UNBLOCK ? BSD_SIG_UNBLOCK : BSD_SIG_SETMASK;
	return tracehost_pthread_sigmask(number, set, old);
}

/* By these two it would tell of a stack's overflow. It doesn't: FreeBSD's signals have other numbers. */
int tracehost_rust_sigaction(int number, const struct sigaction *new, struct sigaction *old)
{
	(void)number, (void)new;
	if (old != NULL)
		*old = (struct sigaction){.sa_handler = SIG_DFL};
	return 0;
}

int tracehost_rust_sigaltstack(const stack_t *new, stack_t *old)
{
	(void)new;
	if (old != NULL)
		*old = (stack_t){.ss_flags = SS_DISABLE};
	return 0;
}

/* Its locks are futexes. */
long tracehost_rust_syscall(long number, ...)
{
	long a[6];
	va_list arguments;
	va_start(arguments, number);
	for (size_t i = 0; i < sizeof a / sizeof a[0]; i++)
		a[i] = va_arg(arguments, long);
	va_end(arguments);
	if (number == SYS_futex)
		return tracehost_syscall(SYSCALL_FUTEX, a[0], a[1], a[2], a[3], a[4], a[5]);
	return syscall(number, a[0], a[1], a[2], a[3], a[4], a[5]);
}

/* Of descriptors of processes, which the model doesn't have in this form. */
int tracehost_rust_waitid(int kind, id_t id, void *info, int options)
{
	(void)kind, (void)id, (void)info, (void)options;
	errno = ENOSYS;
	return -1;
}
