/* A library that another compiler makes: each way in which it calls the host. But for kill nothing has an effect should it get
 * through. */
#define _GNU_SOURCE
#include <signal.h>
#include <stdlib.h>
#include <string.h>
#include <sys/syscall.h>
#include <sys/uio.h>
#include <sys/wait.h>
#include <unistd.h>
#include "host_call.h"

static sigset_t set;
static siginfo_t info;

static void note(int number) { (void)number; }

static const struct sigaction action = {.sa_handler = note};

static void by_waitpid(int unused) { (void)unused, waitpid(-1, NULL, WNOHANG); }
static void by_wait4(int unused) { (void)unused, wait4(-1, NULL, WNOHANG, NULL); }
static void by_waitid(int unused) { (void)unused, waitid(P_ALL, 0, &info, (WNOHANG | WEXITED)); }
static void by_sigaction(int unused) { (void)unused, sigaction(SIGUSR1, &action, NULL); }
static void by_signal(int unused) { (void)unused, signal(SIGUSR1, note); }
static void by_sigprocmask(int unused) { (void)unused, sigprocmask(SIG_BLOCK, &set, NULL); }
static void by_pthread_sigmask(int unused) { (void)unused, pthread_sigmask(SIG_BLOCK, &set, NULL); }
static void by_kill(int pid) { kill(pid, SIGKILL); }
static void by_tgkill(int pid) { syscall(SYS_tgkill, pid, pid, SIGABRT); }
static void by_syscall(int unused) { (void)unused, syscall(SYS_wait4, -1, NULL, WNOHANG, NULL); }
static void raw_wait4(int unused) { (void)unused, host_call(SYS_wait4, -1, 0, WNOHANG, 0); }
static void raw_waitid(int unused) { (void)unused, host_call(SYS_waitid, P_ALL, 0, (long)&info, (WNOHANG | WEXITED)); }
static void raw_sigaction(int unused) { (void)unused, host_call(SYS_rt_sigaction, SIGUSR1, 0, 0, 8); }
static void raw_sigprocmask(int unused) { (void)unused, host_call(SYS_rt_sigprocmask, SIG_BLOCK, (long)&set, 0, 8); }
static void raw_kill(int pid) { host_call(SYS_kill, pid, SIGKILL, 0, 0); }
static void aborts(int unused) { (void)unused, abort(); }

static void raw_fork(int unused)
{
	(void)unused;
	if (host_call(SYS_fork, 0, 0, 0, 0) == 0)
		host_call(SYS_exit_group, 0, 0, 0, 0);
}

static void reads_itself(int from)
{
	int to = ~from;
	struct iovec of = {&from, sizeof from}, into = {&to, sizeof to};

	if (process_vm_readv(getpid(), &into, 1, &of, 1, 0) != sizeof to || to != from)
		abort();
}

static const struct {
	const char *name;
	void (*call)(int);
} calls[] = {
	{"waitpid", by_waitpid},
	{"wait4", by_wait4},
	{"waitid", by_waitid},
	{"sigaction", by_sigaction},
	{"signal", by_signal},
	{"sigprocmask", by_sigprocmask},
	{"pthread_sigmask", by_pthread_sigmask},
	{"kill", by_kill},
	{"tgkill of another", by_tgkill},
	{"wait4 by syscall", by_syscall},
	{"wait4 by instruction", raw_wait4},
	{"waitid by instruction", raw_waitid},
	{"sigaction by instruction", raw_sigaction},
	{"sigprocmask by instruction", raw_sigprocmask},
	{"kill by instruction", raw_kill},
	{"fork by instruction", raw_fork},
	{"aborts", aborts},
	{"reads itself", reads_itself},
};

/* Makes this call, on this process if it is one on a process: 0, or 1 if there is none of that name. */
int library_calls(const char *what, int pid)
{
	size_t i;

	sigemptyset(&set);
	for (i = 0; i < sizeof calls / sizeof calls[0]; i++)
		if (strcmp(what, calls[i].name) == 0) {
			calls[i].call(pid);
			return (0);
		}
	return (strcmp(what, "nothing") != 0);
}
