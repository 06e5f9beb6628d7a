/*
 * A debugger counts the calls of a function with a breakpoint. It takes the breakpoint out to step over it. FreeBSD on
 * amd64.
 *
 * The race: while one thread is stepped, the others run too, and may come by the breakpoint's place.
 * The remedy: the other threads are suspended for the step.
 */
#include "races.h"
#include <machine/reg.h>
#include <stdint.h>

enum { CALLS = 3, TRAP = 0xcc };

static volatile int calls;

static __attribute__((noinline)) void
counted(void)
{

	__sync_fetch_and_add(&calls, 1);
}

static void *
call_now_and_then(void *unused)
{

	for (int i = 0; i < CALLS; i++) {
		usleep(1000);
		counted();
	}
	return (unused);
}

static void
target(void)
{
	pthread_t thread;

	if (pthread_create(&thread, NULL, call_now_and_then, NULL) != 0)
		_exit(2);
	for (int i = 0; i < CALLS; i++)
		counted();
	pthread_join(thread, NULL);
	_exit(calls);
}

static void
set_byte(pid_t pid, unsigned char byte, unsigned char *old)
{
	unsigned char there;
	struct ptrace_io_desc desc = { .piod_op = PIOD_READ_I, .piod_offs = (void *)(uintptr_t)counted, .piod_addr = &there, .piod_len = 1 };

	if (ptrace(PT_IO, pid, (caddr_t)&desc, 0) != 0)
		err(1, "PT_IO");
	if (old != NULL)
		*old = there;
	desc.piod_op = PIOD_WRITE_I;
	desc.piod_addr = &byte;
	if (ptrace(PT_IO, pid, (caddr_t)&desc, 0) != 0)
		err(1, "PT_IO");
}

static lwpid_t
stopped_lwp(pid_t pid)
{
	struct ptrace_lwpinfo info;

	if (ptrace(PT_LWPINFO, pid, (caddr_t)&info, sizeof(info)) != 0)
		err(1, "PT_LWPINFO");
	return (info.pl_lwpid);
}

static void
others(int number, pid_t pid, lwpid_t lwp)
{
#ifdef RIGHT
	lwpid_t all[4];
	int count = ptrace(PT_GETLWPLIST, pid, (caddr_t)all, 4);

	for (int i = 0; i < count; i++)
		if (all[i] != lwp)
			request(number, all[i], 0);
#else
	(void)number, (void)pid, (void)lwp;
#endif
}

/* Over the instruction where the breakpoint is. */
static void
step_over(pid_t pid, lwpid_t lwp, unsigned char byte)
{
	struct reg registers;

	if (ptrace(PT_GETREGS, lwp, (caddr_t)&registers, 0) != 0)
		err(1, "PT_GETREGS");
	registers.r_rip--;
	if (ptrace(PT_SETREGS, lwp, (caddr_t)&registers, 0) != 0)
		err(1, "PT_SETREGS");
	set_byte(pid, byte, NULL);
	others(PT_SUSPEND, pid, lwp);
	request(PT_STEP, lwp, 0);
	await_stop(pid, SIGTRAP);
	others(PT_RESUME, pid, lwp);
	set_byte(pid, TRAP, NULL);
}

int
main(void)
{
	unsigned char byte;
	int status, hits = 0;
	pid_t pid;

	if ((pid = fork()) == 0) {
		ptrace(PT_TRACE_ME, 0, NULL, 0);
		raise(SIGSTOP);
		target();
	}
	await_stop(pid, SIGSTOP);
	set_byte(pid, TRAP, &byte);
	for (;;) {
		request(PT_CONTINUE, pid, 0);
		status = await(pid);
		if (!WIFSTOPPED(status))
			break;
		hits++;
		step_over(pid, stopped_lwp(pid), byte);
	}
	if (!WIFEXITED(status) || WEXITSTATUS(status) != 2 * CALLS)
		errx(1, "status %#x of the target", status);
	if (hits != 2 * CALLS)
		errx(1, "%d of %d calls were counted", hits, 2 * CALLS);
	return (0);
}
