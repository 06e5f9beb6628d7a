/*
 * Drives delve's proc_freebsd.c, and makes the calls of its proc_freebsd.go and threads_freebsd.go in their order: three
 * threads meet a breakpoint twice each. What is expected was written before the first run.
 *
 *   delve           the debugger, which launches its own program again
 *   delve target    the process that is debugged
 */
#include <sys/types.h>
#include <sys/ptrace.h>
#include <sys/user.h>
#include <sys/wait.h>
#include <machine/reg.h>
#include <err.h>
#include <errno.h>
#include <pthread.h>
#include <signal.h>
#include <stdbool.h>
#include <stdio.h>
#include <stdlib.h>
#include <string.h>
#include <unistd.h>
#include "proc_freebsd.h"

enum { WORKERS = 3, ROUNDS = 2, TARGET_ENDS = 7, ROOM = 64, STOPPED = 4, BREAKPOINT = 0xcc };

/* ---- the target */

__attribute__((noinline)) int
place(int n)
{
	__asm__ volatile("");
	return (n + 1);
}

static void *
work(void *unused)
{
	int *sums = unused;

	for (int i = 0; i < ROUNDS; i++)
		*sums += place(i);
	return (NULL);
}

static int
target(void)
{
	pthread_t threads[WORKERS];
	int sums[WORKERS] = { 0 }, sum = 0;

	for (int i = 0; i < WORKERS; i++)
		if (pthread_create(&threads[i], NULL, work, &sums[i]) != 0)
			return (1);
	for (int i = 0; i < WORKERS; i++)
		sum += pthread_join(threads[i], NULL) == 0 ? sums[i] : 0;
	return (sum == WORKERS * (1 + 2) ? TARGET_ENDS : 2);
}

/* ---- the debugger's state: of each thread whether it is at the breakpoint, and its last status */

static struct thread {
	int tid, status;
	bool at_breakpoint;
} threads[ROOM];
static int thread_count, trapped[ROOM], trapped_count, delayed_signal, last_status;
static pid_t pid;
static unsigned char original;

static struct thread *
find(int tid)
{
	for (int i = 0; i < thread_count; i++)
		if (threads[i].tid == tid)
			return (&threads[i]);
	return (NULL);
}

static void
require(int result, const char *what)
{
	if (result == -1)
		err(3, "%s", what);
}

static void
add_thread(int tid)
{
	int status;

	if (find(tid) != NULL)
		return;
	if (ptrace(PT_LWP_EVENTS, pid, NULL, 1) == -1) {
		if (errno != ESRCH)
			err(3, "PT_LWP_EVENTS");
		require(waitpid(pid, &status, 0), "wait4");
	}
	threads[thread_count++] = (struct thread){ .tid = tid };
}

static void
forget(int tid)
{
	struct thread *thread = find(tid);

	if (thread != NULL)
		*thread = threads[--thread_count];
}

static void
write_byte(unsigned char byte)
{
	struct ptrace_io_desc io = { PIOD_WRITE_D, (void *)(uintptr_t)place, &byte, 1 };

	require(ptrace(PT_IO, pid, (caddr_t)&io, 0), "PIOD_WRITE_D");
}

static void suspend(int tid) { require(ptrace(PT_SUSPEND, tid, (caddr_t)1, 0), "PT_SUSPEND"); }
static void resume(int tid) { require(ptrace(PT_RESUME, tid, (caddr_t)1, 0), "PT_RESUME"); }
static void go_on(int id, int sig) { require(ptrace(PT_CONTINUE, id, (caddr_t)1, sig), "PT_CONTINUE"); }

/* trapWaitInternal: the thread that has stopped; NULL at the end. */
static struct thread *
trap_wait(pid_t which, bool stepping)
{
	struct ptrace_lwpinfo info;
	struct thread *thread;
	pid_t got;

	for (;;) {
		got = waitpid(which, &last_status, 0);
		if (got != pid)
			continue;
		if (!WIFSTOPPED(last_status))
			return (NULL);
		require(ptrace(PT_LWPINFO, got, (caddr_t)&info, sizeof(info)), "PT_LWPINFO");
		thread = find(info.pl_lwpid);
		if (thread != NULL)
			thread->status = last_status;
		if (WSTOPSIG(last_status) == SIGTRAP && info.pl_flags & PL_FLAG_EXITED) {
			forget(info.pl_lwpid);
			go_on(info.pl_lwpid, 0);
			continue;
		}
		if (WSTOPSIG(last_status) == SIGTRAP && info.pl_flags & PL_FLAG_BORN) {
			add_thread(info.pl_lwpid);
			if (stepping)
				suspend(info.pl_lwpid);
			go_on(pid, 0);
			continue;
		}
		if (thread == NULL)
			continue;
		if (stepping || WSTOPSIG(last_status) == SIGTRAP)
			return (thread);
		go_on(pid, WSTOPSIG(last_status));
	}
}

/* singleStep: the others stay suspended. What they report meanwhile is kept. */
static void
single_step(int tid)
{
	struct thread *thread;
	int sig = 0;

	require(ptrace(PT_SETSTEP, tid, NULL, 0), "PT_SETSTEP");
	resume(tid);
	for (;;) {
		go_on(pid, sig);
		sig = 0;
		if ((thread = trap_wait(-1, true)) == NULL)
			errx(4, "the target has ended in a step, with status %#x", (unsigned)last_status);
		if (thread->tid == tid && WSTOPSIG(thread->status) == SIGTRAP)
			break;
		if (WSTOPSIG(thread->status) == SIGTRAP)
			trapped[trapped_count++] = thread->tid;
		else if (WSTOPSIG(thread->status) != SIGSTOP)
			delayed_signal = WSTOPSIG(thread->status);
	}
	suspend(tid);
	require(ptrace(PT_CLEARSTEP, tid, NULL, 0), "PT_CLEARSTEP");
}

/* postStop: the thread is set back to the breakpoint that it has met. */
static void
meet_breakpoint(int tid)
{
	struct thread *thread = find(tid);
	struct reg r;

	if (thread == NULL)
		errx(4, "thread %d met a breakpoint, and is gone", tid);
	require(ptrace(PT_GETREGS, tid, (caddr_t)&r, 0), "PT_GETREGS");
	if (r.r_rip - 1 != (int64_t)(uintptr_t)place)
		errx(4, "thread %d has stopped at %#lx, not behind the breakpoint", tid, (long)r.r_rip);
	r.r_rip--;
	require(ptrace(PT_SETREGS, tid, (caddr_t)&r, 0), "PT_SETREGS");
	thread->at_breakpoint = true;
}

/* resume: each thread at the breakpoint makes a step without it. */
static void
step_over(void)
{
	for (int i = 0; i < thread_count; i++)
		if (threads[i].at_breakpoint) {
			threads[i].at_breakpoint = false;
			write_byte(original);
			single_step(threads[i].tid);
			write_byte(BREAKPOINT);
			i = -1; /* threads were added, or have gone */
		}
}

/* ContinueOnce: how many threads have met the breakpoint; 0 at the end. */
static int
continue_once(void)
{
	struct thread *thread;
	int count = 0, sig = delayed_signal;

	step_over();
	for (; trapped_count > 0; count++)
		meet_breakpoint(trapped[--trapped_count]);
	if (count > 0)
		return (count);
	for (int i = 0; i < thread_count; i++)
		resume(threads[i].tid);
	delayed_signal = 0;
	go_on(pid, sig);
	if ((thread = trap_wait(pid, false)) == NULL)
		return (0);
	for (int i = 0; i < thread_count; i++)
		suspend(threads[i].tid);
	meet_breakpoint(thread->tid);
	return (1);
}

/* ---- launch: what proc_freebsd.c says of the process is looked at too */

static void
launch(char *program)
{
	int status;

	pid = fork();
	if (pid == 0) {
		if (ptrace(PT_TRACE_ME, 0, NULL, 0) == 0)
			execl(program, program, "target", (char *)NULL);
		_exit(99);
	}
	require(pid, "fork");
	if (waitpid(pid, &status, 0) != pid || !WIFSTOPPED(status) || WSTOPSIG(status) != SIGTRAP)
		errx(3, "launch: status %#x", (unsigned)status);
}

static void
initialize(const char *program)
{
	char path[PATH_MAX], *name = find_command_name(pid), *file = find_executable(pid);
	struct ptrace_io_desc io = { PIOD_READ_D, (void *)(uintptr_t)place, &original, 1 };
	int tids[ROOM], count;

	if (name == NULL || strcmp(name, "delve") != 0)
		errx(4, "the command's name is %s", name);
	if (realpath(program, path) == NULL || file == NULL || strcmp(file, path) != 0)
		errx(4, "the executable is %s", file);
	if (find_status(pid) != STOPPED || get_entry_point(pid) == 0)
		errx(4, "it isn't stopped, or has no entry point");
	free(name);
	free(file);
	require(count = ptrace(PT_GETNUMLWPS, pid, NULL, 0), "PT_GETNUMLWPS");
	require(count = ptrace(PT_GETLWPLIST, pid, (caddr_t)tids, count), "PT_GETLWPLIST");
	for (int i = 0; i < count; i++)
		add_thread(tids[i]);
	require(ptrace(PT_IO, pid, (caddr_t)&io, 0), "PIOD_READ_D");
	write_byte(BREAKPOINT);
}

int
main(int argc, char **argv)
{
	int hits = 0, met;

	if (argc > 1)
		return (target());
	launch(argv[0]);
	initialize(argv[0]);
	while ((met = continue_once()) > 0)
		hits += met;
	printf("%d hits, status %#x\n", hits, (unsigned)last_status);
	return (hits == WORKERS * ROUNDS && WIFEXITED(last_status) && WEXITSTATUS(last_status) == TARGET_ENDS ? 0 : 1);
}
