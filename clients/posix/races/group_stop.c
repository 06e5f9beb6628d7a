/*
 * A debugger that counts a process's system calls for a while. The first
 * SIGSTOP is its own, by PT_ATTACH, and it drops every SIGSTOP.
 *
 * The race: somebody stops the process by SIGSTOP while it is traced, and
 * waits for that stop. The debugger takes it for its own, and the stop of the
 * process is lost.
 * The remedy: PT_ATTACH makes one SIGSTOP. Another is somebody's: send it
 * again after PT_DETACH.
 * Known from: strace, which distinguishes the stop of an attach, a signal's
 * stop and a group stop. Programs that were stopped by SIGSTOP once ran on
 * under it.
 */
#include <sys/types.h>
#include <sys/ptrace.h>
#include <sys/wait.h>
#include <err.h>
#include <signal.h>
#include <stdio.h>
#include <unistd.h>

#define STOPS 12

static int attached[2], gate[2], start[2];

static void
run_target(void)
{
	char byte;

	if (read(start[0], &byte, 1) != 1)
		_exit(2);
	for (int i = 0; i < STOPS; i++)
		(void)getppid();
	_exit(read(gate[0], &byte, 1) == 1 ? 0 : 2);
}

static int
await_stop(pid_t pid)
{
	int status;

	if (waitpid(pid, &status, 0) != pid || !WIFSTOPPED(status))
		_exit(2);
	return (WSTOPSIG(status));
}

static void
count_calls(pid_t target)
{
	int stopped = 0;

	if (ptrace(PT_ATTACH, target, NULL, 0) != 0 || await_stop(target) != SIGSTOP)
		_exit(2);
	if (write(attached[1], "x", 1) != 1 || write(start[1], "x", 1) != 1)
		_exit(2);
	for (int i = 0; i < STOPS; i++) {
		if (ptrace(PT_SYSCALL, target, (caddr_t)1, 0) != 0)
			_exit(2);
		stopped += await_stop(target) == SIGSTOP;
	}
	if (ptrace(PT_DETACH, target, (caddr_t)1, 0) != 0)
		_exit(2);
#ifdef RIGHT
	if (stopped > 0)
		(void)kill(target, SIGSTOP);
#endif
	_exit(stopped > 0 ? 3 : 0);
}

int
main(void)
{
	pid_t debugger, target;
	int status;
	char byte;

	if (pipe(gate) != 0 || pipe(attached) != 0 || pipe(start) != 0)
		err(1, "pipe");
	if ((target = fork()) == -1)
		err(1, "fork");
	if (target == 0)
		run_target();
	if ((debugger = fork()) == -1)
		err(1, "fork");
	if (debugger == 0)
		count_calls(target);
	if (read(attached[0], &byte, 1) != 1)
		err(1, "read");
	sleep(1);
	if (kill(target, SIGSTOP) != 0)
		err(1, "kill");
	if (waitpid(target, &status, WUNTRACED) != target || !WIFSTOPPED(status))
		errx(1, "the target isn't stopped");
	if (waitpid(debugger, &status, 0) != debugger)
		err(1, "waitpid");
	if (kill(target, SIGCONT) != 0)
		err(1, "kill");
	if (write(gate[1], "x", 1) != 1)
		err(1, "write");
	if (waitpid(target, &status, 0) != target || !WIFEXITED(status))
		errx(1, "the target hasn't exited");
	printf("the target was stopped, and exited with %d\n", WEXITSTATUS(status));
	return (WEXITSTATUS(status));
}
