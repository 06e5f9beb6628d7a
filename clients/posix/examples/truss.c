/*
 * A small truss(1): runs a command, or attaches to processes, and prints their system calls, signals and ends.
 *
 *     truss [-f] [-c] [-o file] command [argument ...]
 *     truss [-f] [-c] [-o file] -p pid
 *
 * -f follows forks, -c counts calls in place of printing them. SIGINT detaches from all processes, which go on.
 * Plain FreeBSD C: it uses nothing but ptrace(2), wait(2) and signals.
 */
#include <sys/types.h>
#include <sys/ptrace.h>
#include <sys/wait.h>
#include <err.h>
#include <errno.h>
#include <signal.h>
#include <stdarg.h>
#include <stdio.h>
#include <stdlib.h>
#include <string.h>
#include <unistd.h>

enum { PROCESSES = 64, CODES = 600 };

/* A process that is traced. */
struct process {
	pid_t pid;
	int started; /* its first stop was seen */
};

static struct process processes[PROCESSES];
static int live; /* of them */
static int follow, counting;
static unsigned long counts[CODES];
static FILE *out;
static volatile sig_atomic_t interrupted;

static const struct { unsigned code; const char *name; } names[] = {
	{ 1, "exit" }, { 2, "fork" }, { 3, "read" }, { 4, "write" }, { 5, "open" }, { 6, "close" }, { 7, "wait4" },
	{ 20, "getpid" }, { 24, "getuid" }, { 26, "ptrace" }, { 29, "pause" }, { 37, "kill" }, { 39, "getppid" },
	{ 41, "dup" }, { 59, "execve" }, { 66, "vfork" }, { 83, "setitimer" }, { 90, "dup2" }, { 93, "select" },
	{ 135, "socketpair" }, { 209, "poll" }, { 232, "clock_gettime" }, { 240, "nanosleep" }, { 331, "sched_yield" },
	{ 340, "sigprocmask" }, { 341, "sigsuspend" }, { 345, "sigtimedwait" }, { 416, "sigaction" }, { 431, "thr_exit" },
	{ 432, "thr_self" }, { 433, "thr_kill" }, { 454, "_umtx_op" }, { 455, "thr_new" }, { 542, "pipe2" },
};

static const char *
name_of(unsigned code)
{
	static char unknown[32];
	size_t i;

	for (i = 0; i < sizeof(names) / sizeof(names[0]); i++)
		if (names[i].code == code)
			return (names[i].name);
	snprintf(unknown, sizeof(unknown), "#%u", code);
	return (unknown);
}

static void
on_signal(int sig)
{

	if (sig == SIGINT)
		interrupted = 1;
}

/* ---- processes */

static struct process *
find(pid_t pid)
{
	int i;

	for (i = 0; i < PROCESSES; i++)
		if (processes[i].pid == pid)
			return (&processes[i]);
	return (NULL);
}

static struct process *
learn(pid_t pid)
{
	struct process *p = find(pid);

	if (p != NULL)
		return (p);
	if ((p = find(0)) == NULL)
		errx(1, "more than %d processes", PROCESSES);
	p->pid = pid;
	p->started = 0;
	live++;
	return (p);
}

static void
forget(struct process *p)
{

	p->pid = 0;
	live--;
}

/* A request that may come too late: a process can be killed at any time. */
static int
request(int number, pid_t pid, void *addr, int data)
{

	if (ptrace(number, pid, addr, data) == 0)
		return (0);
	if (errno != ESRCH)
		err(1, "ptrace request %d of %d", number, (int)pid);
	return (-1);
}

/* ---- what is printed */

static void __attribute__((format(printf, 3, 4)))
say(pid_t pid, lwpid_t lwp, const char *format, ...)
{
	va_list ap;

	if (counting)
		return;
	fprintf(out, "%5d", (int)pid);
	if (lwp != 0)
		fprintf(out, "/%d", (int)lwp);
	fprintf(out, ": ");
	va_start(ap, format);
	vfprintf(out, format, ap);
	va_end(ap);
	fputc('\n', out);
}

static void
print_counts(void)
{
	unsigned code;

	fprintf(out, "%-16s %8s\n", "syscall", "calls");
	for (code = 0; code < CODES; code++)
		if (counts[code] != 0)
			fprintf(out, "%-16s %8lu\n", name_of(code), counts[code]);
}

/* ---- stops */

/* The first stop of a process: what it is to stop for. */
static void
set_events(struct process *p)
{
	int mask = PTRACE_EXEC | PTRACE_SCE | PTRACE_SCX | PTRACE_LWP;

	if (follow)
		mask |= PTRACE_FORK | PTRACE_VFORK;
	request(PT_SET_EVENT_MASK, p->pid, &mask, sizeof(mask));
	p->started = 1;
}

static void
report_call(const struct ptrace_lwpinfo *pl, pid_t pid)
{
	unsigned code = pl->pl_syscall_code;

	if (pl->pl_flags & PL_FLAG_SCE) {
		if (code < CODES)
			counts[code]++;
		say(pid, pl->pl_lwpid, "%s(...)", name_of(code));
	} else if (pl->pl_flags & PL_FLAG_EXEC)
		say(pid, 0, "<new image>");
	else if (pl->pl_flags & PL_FLAG_FORKED)
		say(pid, 0, "<%s: process %d>", pl->pl_flags & PL_FLAG_VFORKED ? "vfork" : "fork", (int)pl->pl_child_pid);
	else if (pl->pl_flags & PL_FLAG_VFORK_DONE)
		say(pid, 0, "<vfork's child is done>");
	else if (pl->pl_flags & PL_FLAG_BORN)
		say(pid, pl->pl_lwpid, "<new thread>");
	else if (pl->pl_flags & PL_FLAG_EXITED)
		say(pid, pl->pl_lwpid, "<thread exits>");
}

/* The signal that the process goes on with. */
static int
handle_stop(struct process *p, int sig)
{
	struct ptrace_lwpinfo pl;
	int first = !p->started;

	if (request(PT_LWPINFO, p->pid, &pl, sizeof(pl)) != 0)
		return (0);
	if (first)
		set_events(p);
	if (pl.pl_flags & PL_FLAG_FORKED)
		learn(pl.pl_child_pid);
	if (pl.pl_flags & PL_FLAG_CHILD) {
		say(p->pid, 0, "<new process>");
		return (0);
	}
	if (pl.pl_flags & ~PL_FLAG_SI) {
		report_call(&pl, p->pid);
		return (0);
	}
	if (sig == SIGSTOP && first) /* that of PT_ATTACH, or of the command's start */
		return (0);
	say(p->pid, 0, "SIGNAL %d (%s)", sig, strsignal(sig));
	return (sig);
}

static void
handle_end(struct process *p, int status)
{

	if (WIFEXITED(status))
		say(p->pid, 0, "process exit, rval = %d", WEXITSTATUS(status));
	else
		say(p->pid, 0, "process killed, signal = %d", WTERMSIG(status));
	forget(p);
}

/* One status. */
static void
handle(pid_t pid, int status)
{
	struct process *p = find(pid);
	int sig;

	if (WIFSTOPPED(status)) {
		if (p == NULL) /* a new process may be met before its maker has named it */
			p = learn(pid);
		sig = handle_stop(p, WSTOPSIG(status));
		request(PT_CONTINUE, pid, (caddr_t)1, sig);
	} else if (p != NULL)
		handle_end(p, status);
}

/* ---- the end by SIGINT */

/*
 * Stops a process, so that it can be let go: another stop may come before the one by SIGSTOP, and is handled first.
 * A process whose first stop is still to come needs no signal.
 */
static void
detach(struct process *p)
{
	pid_t pid = p->pid;
	int first = !p->started, sig, status;

	if (!first && kill(pid, SIGSTOP) != 0)
		return;
	for (;;) {
		if (waitpid(pid, &status, 0) != pid)
			return;
		if (!WIFSTOPPED(status)) {
			handle_end(p, status);
			return;
		}
		sig = handle_stop(p, WSTOPSIG(status));
		if (first || sig == SIGSTOP)
			break;
		request(PT_CONTINUE, pid, (caddr_t)1, sig);
	}
	say(pid, 0, "detached");
	request(PT_DETACH, pid, (caddr_t)1, 0);
	forget(p);
}

static void
detach_all(void)
{
	int i, found;

	do { /* a new process may be met meanwhile */
		found = 0;
		for (i = 0; i < PROCESSES; i++)
			if (processes[i].pid != 0) {
				found = 1;
				detach(&processes[i]);
			}
	} while (found && live > 0);
}

/* ---- the command */

static pid_t
start(char **argv)
{
	pid_t pid = fork();

	if (pid == -1)
		err(1, "fork");
	if (pid == 0) {
		signal(SIGINT, SIG_DFL);
		signal(SIGCHLD, SIG_DFL);
		if (ptrace(PT_TRACE_ME, 0, NULL, 0) != 0)
			err(1, "PT_TRACE_ME");
		raise(SIGSTOP); /* so that the debugger sets its events before the exec */
		execvp(argv[0], argv);
		err(1, "%s", argv[0]);
	}
	return (pid);
}

/* SIGINT and SIGCHLD come only in sigsuspend(2), so that none is missed. */
static void
trace(void)
{
	sigset_t both, old;
	pid_t pid;
	int status;

	sigemptyset(&both);
	sigaddset(&both, SIGINT);
	sigaddset(&both, SIGCHLD);
	sigprocmask(SIG_BLOCK, &both, &old);
	while (live > 0 && !interrupted) {
		pid = waitpid(-1, &status, WNOHANG);
		if (pid > 0)
			handle(pid, status);
		else if (pid == 0)
			sigsuspend(&old);
		else
			break;
	}
	if (interrupted)
		detach_all();
	sigprocmask(SIG_SETMASK, &old, NULL);
}

static void
usage(void)
{

	fprintf(stderr, "usage: truss [-f] [-c] [-o file] command [argument ...]\n       truss [-f] [-c] [-o file] -p pid\n");
	exit(2);
}

int
main(int argc, char **argv)
{
	struct sigaction act;
	pid_t pid = 0;
	int ch;

	out = stderr;
	while ((ch = getopt(argc, argv, "+fco:p:")) != -1)
		switch (ch) {
		case 'f':
			follow = 1;
			break;
		case 'c':
			counting = 1;
			break;
		case 'o':
			if ((out = fopen(optarg, "w")) == NULL)
				err(1, "%s", optarg);
			break;
		case 'p':
			pid = atoi(optarg);
			break;
		default:
			usage();
		}
	if ((pid == 0) == (argc == optind))
		usage();
	memset(&act, 0, sizeof(act));
	act.sa_handler = on_signal;
	sigaction(SIGINT, &act, NULL);
	sigaction(SIGCHLD, &act, NULL);
	if (pid == 0)
		pid = start(argv + optind);
	else if (ptrace(PT_ATTACH, pid, NULL, 0) != 0)
		err(1, "PT_ATTACH %d", (int)pid);
	learn(pid);
	trace();
	if (counting)
		print_counts();
	return (0);
}
