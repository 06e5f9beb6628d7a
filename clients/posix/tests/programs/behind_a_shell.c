/* A debugger starts its target by a shell, as gdb does: the target is a process of the model, at the second exec. It is traced,
 * has its number, forks, and its pipe ends with it.
 * natively: no
 * prints: execs 2|SIGUSR1|the same process|target 7
 * schedules: 40 */
#include <sys/types.h>
#include <sys/ptrace.h>
#include <sys/wait.h>
#include <signal.h>
#include <stdio.h>
#include <stdlib.h>
#include <unistd.h>

static int target(void)
{
	int status;
	pid_t child = fork();

	if (child == 0)
		_exit(3);
	if (waitpid(child, &status, 0) != child || WEXITSTATUS(status) != 3)
		return 1;
	raise(SIGUSR1);
	dprintf(3, "%d\n", getpid());
	return 7;
}

int main(int argc, char **argv)
{
	char command[4200], path[4096], text[20] = "";
	int status, execs = 0, told = 0, ends[2], length = 0;
	ssize_t got;

	if (argc > 1)
		return target();
	if (pipe(ends) != 0 || readlink("/proc/self/exe", path, sizeof path - 1) < 0)
		return 1;
	snprintf(command, sizeof command, "exec '%.*s' target", (int)readlink("/proc/self/exe", path, sizeof path - 1), path);
	pid_t shell = fork();
	if (shell == 0) {
		ptrace(PT_TRACE_ME, 0, 0, 0);
		dup2(ends[1], 3);
		execl("/bin/sh", "sh", "-c", command, (char *)NULL);
		_exit(99);
	}
	close(ends[1]);
	while (waitpid(shell, &status, 0) == shell && WIFSTOPPED(status)) {
		struct ptrace_lwpinfo info;
		ptrace(PT_LWPINFO, shell, (caddr_t)&info, sizeof info);
		execs += (info.pl_flags & PL_FLAG_EXEC) != 0;
		told += WSTOPSIG(status) == SIGUSR1;
		ptrace(PT_CONTINUE, shell, (caddr_t)1, 0);
	}
	while (length < (int)sizeof text - 1 && (got = read(ends[0], text + length, 1)) > 0)
		length++;
	printf("execs %d\n%s\n%s process\ntarget %d\n", execs, told == 1 ? "SIGUSR1" : "none",
	       atoi(text) == shell ? "the same" : "another", WEXITSTATUS(status));
	return 0;
}
