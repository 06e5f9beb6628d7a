/*
 * A debugger counts the calls of a function with a breakpoint. It takes the breakpoint out to step over it, and suspends
 * the other threads for the step. FreeBSD on amd64.
 *
 * The race: a thread that was created before reports its birth during the step, and is let go like any other one. It
 * comes by the breakpoint's place.
 * The remedy: a thread that is born during a step is suspended until the step is over.
 * Known from: LLDB 14's NativeProcessFreeBSD, which makes these calls at PL_FLAG_BORN; a kernel has still to show it.
 */
#include "races.h"
#include <machine/reg.h>
#include <stdint.h>

enum { THREADS = 2, TRAP = 0xcc };

static volatile int calls;
static lwpid_t known[THREADS + 1];
static int count;

static __attribute__((noinline)) void counted(void) { __atomic_add_fetch(&calls, 1, __ATOMIC_SEQ_CST); }

static void *call_once(void *unused)
{

	counted();
	return (unused);
}

static void target(void)
{
	pthread_t threads[THREADS];

	for (int i = 0; i < THREADS; i++)
		if (pthread_create(&threads[i], NULL, call_once, NULL) != 0)
			_exit(2);
	for (int i = 0; i < THREADS; i++)
		pthread_join(threads[i], NULL);
	_exit(calls);
}

static void set_byte(pid_t pid, unsigned char byte, unsigned char *old)
{
	unsigned char there;
	struct ptrace_io_desc desc = {
		.piod_op = PIOD_READ_I, .piod_offs = (void *)(uintptr_t)counted, .piod_addr = &there, .piod_len = 1};

	if (ptrace(PT_IO, pid, (caddr_t)&desc, 0) != 0)
		err(1, "PT_IO");
	if (old != NULL)
		*old = there;
	desc.piod_op = PIOD_WRITE_I;
	desc.piod_addr = &byte;
	if (ptrace(PT_IO, pid, (caddr_t)&desc, 0) != 0)
		err(1, "PT_IO");
}

/* The next stop: false if the target has ended. Births and ends of threads go on. `stepping`: a step is under way. */
static int next_stop(pid_t pid, int stepping, struct ptrace_lwpinfo *info, int *status)
{

	for (;;) {
		*status = await(pid);
		if (!WIFSTOPPED(*status))
			return (0);
		if (ptrace(PT_LWPINFO, pid, (caddr_t)info, sizeof(*info)) != 0)
			err(1, "PT_LWPINFO");
		if ((info->pl_flags & (PL_FLAG_BORN | PL_FLAG_EXITED)) == 0)
			return (1);
		if (info->pl_flags & PL_FLAG_BORN) {
			known[count++] = info->pl_lwpid;
#ifdef RIGHT
			if (stepping)
				request(PT_SUSPEND, info->pl_lwpid, 0);
#else
			(void)stepping;
#endif
		} else {
			for (int i = 0; i < count; i++)
				if (known[i] == info->pl_lwpid)
					known[i] = known[--count];
		}
		request(PT_CONTINUE, pid, 0);
	}
}

static void others(int number, lwpid_t lwp)
{

	for (int i = 0; i < count; i++)
		if (known[i] != lwp)
			request(number, known[i], 0);
}

/* Over the instruction where the breakpoint is. */
static int step_over(pid_t pid, lwpid_t lwp, unsigned char byte, int *status)
{
	struct ptrace_lwpinfo info;
	struct reg registers;

	if (ptrace(PT_GETREGS, lwp, (caddr_t)&registers, 0) != 0)
		err(1, "PT_GETREGS");
	registers.r_rip--;
	if (ptrace(PT_SETREGS, lwp, (caddr_t)&registers, 0) != 0)
		err(1, "PT_SETREGS");
	set_byte(pid, byte, NULL);
	others(PT_SUSPEND, lwp);
	request(PT_SETSTEP, lwp, 0);
	request(PT_CONTINUE, pid, 0);
	if (!next_stop(pid, 1, &info, status))
		return (0);
	request(PT_CLEARSTEP, lwp, 0);
	others(PT_RESUME, lwp);
	set_byte(pid, TRAP, NULL);
	return (1);
}

int main(void)
{
	struct ptrace_lwpinfo info;
	unsigned char byte;
	int status, hits = 0;
	pid_t pid;

	if ((pid = fork()) == 0) {
		ptrace(PT_TRACE_ME, 0, NULL, 0);
		raise(SIGSTOP);
		target();
	}
	await_stop(pid, SIGSTOP);
	request(PT_LWP_EVENTS, pid, 1);
	if (ptrace(PT_GETLWPLIST, pid, (caddr_t)known, 1) != 1)
		err(1, "PT_GETLWPLIST");
	count = 1;
	set_byte(pid, TRAP, &byte);
	do {
		request(PT_CONTINUE, pid, 0);
		if (!next_stop(pid, 0, &info, &status))
			break;
		hits++;
	} while (step_over(pid, info.pl_lwpid, byte, &status));
	if (!WIFEXITED(status) || WEXITSTATUS(status) != THREADS)
		errx(1, "status %#x of the target", status);
	if (hits != THREADS)
		errx(1, "%d of %d calls were counted", hits, THREADS);
	return (0);
}
