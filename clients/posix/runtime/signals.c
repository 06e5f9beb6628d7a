/* Signals: dispositions, masks, and waiting for them. */
#undef _FORTIFY_SOURCE /* whose longjmp(3) goes to no other stack */
#define _GNU_SOURCE
#include <setjmp.h>
#include <stdio.h>
#include <string.h>
#include "freebsd.h"
#include "runtime.h"

struct sigaction tracehost_actions[32];

unsigned tracehost_bits(const sigset_t *set)
{
	unsigned bits = 0;
	for (int n = 1; n <= BSD_SIGNALS; n++)
		bits |= (unsigned)(sigismember(set, n) == 1) << n;
	return bits;
}

void tracehost_set(sigset_t *set, unsigned long bits)
{
	sigemptyset(set);
	for (int n = 1; n <= BSD_SIGNALS; n++)
		if (bits >> n & 1)
			sigaddset(set, n);
}

static int act(const void *where, int number, const struct sigaction *new, struct sigaction *old)
{
	struct sigaction before;
	if (number < 1 || number > BSD_SIGNALS) {
		tracehost_ask(where, "call %d", SYSCALL_SIGACTION);
		errno = EINVAL;
		return -1;
	}
	before = tracehost_actions[number];
	if (new == NULL)
		tracehost_ask(where, "call %d", SYSCALL_SIGACTION);
	else {
		int flags = new->sa_flags;
		int how = flags & BSD_SA_SIGINFO ? 2 : new->sa_handler == SIG_DFL ? 0 : new->sa_handler == SIG_IGN ? 1 : 2;
		tracehost_actions[number] = *new;
		if (tracehost_ask(where, "action %d %d %d %d %u", number, how, !!(flags & BSD_SA_RESTART),
				(flags & BSD_SA_NODEFER ? 1 : 0) | (flags & BSD_SA_RESETHAND ? 2 : 0), tracehost_bits(&new->sa_mask)) != 0) {
			tracehost_actions[number] = before;
			return -1;
		}
	}
	if (old != NULL)
		*old = before;
	return 0;
}

int tracehost_sigaction(int number, const struct sigaction *new, struct sigaction *old) { return act(HERE, number, new, old); }

void (*tracehost_signal(int number, void (*handler)(int)))(int)
{
	struct sigaction action = {.sa_handler = handler, .sa_flags = BSD_SA_RESTART}, old;
	return act(HERE, number, &action, &old) == 0 ? old.sa_handler : SIG_ERR;
}

static int mask(const void *where, int how, const sigset_t *new, sigset_t *old)
{
	if (new != NULL && (how < BSD_SIG_BLOCK || how > BSD_SIG_SETMASK)) {
		errno = EINVAL;
		return -1;
	}
	if (tracehost_ask(where, "mask %d %u", new == NULL ? 0 : how, new == NULL ? 0 : tracehost_bits(new)) != 0)
		return -1;
	if (old != NULL)
		tracehost_set(old, tracehost_number());
	return 0;
}

int tracehost_sigprocmask(int how, const sigset_t *new, sigset_t *old) { return mask(HERE, how, new, old); }
int tracehost_pthread_sigmask(int how, const sigset_t *new, sigset_t *old) { return mask(HERE, how, new, old) != 0 ? errno : 0; }

int tracehost_sigpending(sigset_t *set)
{
	if (ask("pending") != 0)
		return -1;
	tracehost_set(set, tracehost_number());
	return 0;
}

int tracehost_sigsuspend(const sigset_t *set) { return ask("suspend %u", tracehost_bits(set)); }
int tracehost_pause(void) { return ask("pause"); }

/* ---- System V's and BSD's forms of these: sighold(3), sigset(3), sigblock(2) and their kin */

/* Blocks, or unblocks, one signal: whether it was blocked, or -1. */
static int change_mask(const void *where, int how, int number)
{
	sigset_t one, old;
	sigemptyset(&one);
	if (number < 1 || number > BSD_SIGNALS) {
		errno = EINVAL;
		return -1;
	}
	sigaddset(&one, number);
	return mask(where, how, &one, &old) != 0 ? -1 : sigismember(&old, number);
}

int tracehost_sighold(int number) { return change_mask(HERE, BSD_SIG_BLOCK, number) < 0 ? -1 : 0; }
int tracehost_sigrelse(int number) { return change_mask(HERE, BSD_SIG_UNBLOCK, number) < 0 ? -1 : 0; }

int tracehost_sigignore(int number)
{
	struct sigaction action = {.sa_handler = SIG_IGN};
	return act(HERE, number, &action, NULL);
}

void (*tracehost_sigset(int number, void (*handler)(int)))(int)
{
	struct sigaction action = {.sa_handler = handler}, old;
	if (act(HERE, number, handler == SIG_HOLD ? NULL : &action, &old) != 0)
		return SIG_ERR;
	int was_blocked = change_mask(HERE, handler == SIG_HOLD ? BSD_SIG_BLOCK : BSD_SIG_UNBLOCK, number);
	return was_blocked < 0 ? SIG_ERR : was_blocked ? SIG_HOLD : old.sa_handler;
}

int tracehost_siginterrupt(int number, int interrupts)
{
	struct sigaction action;
	if (act(HERE, number, NULL, &action) != 0)
		return -1;
	action.sa_flags = interrupts ? action.sa_flags & ~BSD_SA_RESTART : action.sa_flags | BSD_SA_RESTART;
	return act(HERE, number, &action, NULL);
}

/* BSD's sets of signals are numbers, in which bit 0 is signal 1. */
static int change_bits(const void *where, int how, int bits)
{
	if (tracehost_ask(where, "mask %d %u", how, (unsigned)bits << 1) != 0)
		return -1;
	return (int)(tracehost_number() >> 1);
}

int tracehost_sigblock(int bits) { return change_bits(HERE, BSD_SIG_BLOCK, bits); }
int tracehost_sigsetmask(int bits) { return change_bits(HERE, BSD_SIG_SETMASK, bits); }
/* System V's form, which FreeBSD has by this name. */
int tracehost_xsi_sigpause(int number)
{
	if (number < 1 || number > BSD_SIGNALS) {
		errno = EINVAL;
		return -1;
	}
	ask("mask 0 0");
	return ask("suspend %u", (unsigned)tracehost_number() & ~(1u << number));
}

int tracehost_sigpause(int bits) { return ask("suspend %u", (unsigned)bits << 1); }

/* ---- jumps: FreeBSD's setjmp(3) saves the mask, as sigsetjmp(3) does. It is kept where the host's would be. */

static const unsigned long saved = 0x74726163; /* marks a mask of ours */

void tracehost_save_mask(jmp_buf at, int wanted)
{
	at->__saved_mask.__val[1] = 0;
	at->__saved_mask.__val[2] = (unsigned long)own.now.top;
	at->__saved_mask.__val[3] = (unsigned long)own.now.signals;
	if (!wanted)
		return;
	ask("mask 0 0");
	at->__saved_mask.__val[0] = tracehost_number();
	at->__saved_mask.__val[1] = saved;
}

void tracehost_longjmp(jmp_buf at, int value)
{
	own.busy = 0;
	if (at->__saved_mask.__val[1] == saved)
		ask("mask %d %lu", BSD_SIG_SETMASK, at->__saved_mask.__val[0]);
	if (own.now.lands & LANDS_STEPPED)
		ask("trace 0"); /* it lands nowhere */
	else if (own.now.lands & LANDS_ASKING)
		ask("user");
	tracehost_back_to((char *)at->__saved_mask.__val[2], (char *)at->__saved_mask.__val[3]);
	_longjmp(at, value);
}

static int await_signal(const void *where, const sigset_t *set, const struct timespec *limit, struct __siginfo *info)
{
	long long ns = limit == NULL ? -1 : limit->tv_sec * 1000000000LL + limit->tv_nsec;
	if (tracehost_ask(where, "sigwait %u %lld", tracehost_bits(set), ns) != 0)
		return -1;
	int number = tracehost_number();
	if (info != NULL) {
		memset(info, 0, sizeof *info);
		info->si_signo = number;
		tracehost_describe(info);
	}
	return number;
}

int tracehost_sigwait(const sigset_t *set, int *number)
{
	int got = await_signal(HERE, set, NULL, NULL);
	return got < 0 ? errno : (*number = got, 0);
}

int tracehost_sigwaitinfo(const sigset_t *set, struct __siginfo *info) { return await_signal(HERE, set, NULL, info); }

int tracehost_sigtimedwait(const sigset_t *set, struct __siginfo *info, const struct timespec *limit)
{
	return await_signal(HERE, set, limit, info);
}

int tracehost_kill(pid_t pid, int number) { return ask("kill %d %d", pid, number); }
int tracehost_raise(int number) { return ask("thr_kill %d %d", own.tid, number); }

int tracehost_pthread_kill(pthread_t thread, int number)
{
	int tid = tracehost_tid_of(thread);
	return tid == 0 ? ESRCH : ask("thr_kill %d %d", tid, number) != 0 ? errno : 0;
}

int tracehost_thr_kill(long tid, int number) { return ask("thr_kill %ld %d", tid, number); }

/* Of a thread of the caller's own; those of others have no number here. */
int tracehost_thr_kill2(pid_t pid, long tid, int number)
{
	if (pid == own_pid)
		return ask("thr_kill %ld %d", tid, number);
	tracehost_say("thr_kill2: the model has only threads of the caller (ESRCH)");
	errno = ESRCH;
	return -1;
}

char *tracehost_strsignal(int number)
{
	static char *names[] = {"Signal 0", "Hangup", "Interrupt", "Quit", "Illegal instruction", "Trace/BPT trap", "Abort trap",
		"EMT trap", "Floating point exception", "Killed", "Bus error", "Segmentation fault", "Bad system call", "Broken pipe",
		"Alarm clock", "Terminated", "Urgent I/O condition", "Suspended (signal)", "Suspended", "Continued", "Child exited",
		"Stopped (tty input)", "Stopped (tty output)", "I/O possible", "Cputime limit exceeded", "Filesize limit exceeded",
		"Virtual timer expired", "Profiling timer expired", "Window size changes", "Information request", "User defined signal 1",
		"User defined signal 2"};
	return number >= 0 && number <= BSD_SIGNALS ? names[number] : "Unknown signal";
}

void tracehost_psignal(int number, const char *before)
{
	int has = before != NULL && *before != 0;
	fprintf(stderr, "%s%s%s\n", has ? before : "", has ? ": " : "", tracehost_strsignal(number));
}

void tracehost_psiginfo(const struct __siginfo *info, const char *before) { tracehost_psignal(info->si_signo, before); }
