/* A debugger that follows forks starts its target by a shell, which forks it: it sees the shell's fork, the child's
 * first stop and its exec, the target's signal, and both ends.
 * natively: no
 * prints: fork 1|child 1|execs 2|SIGUSR1 1|its parent is the shell|target 7|shell 7
 * schedules: 50 */
#include <sys/types.h>
#include <sys/ptrace.h>
#include <sys/wait.h>
#include <signal.h>
#include <stdio.h>
#include <stdlib.h>
#include <unistd.h>

static pid_t shell, child;
static int forks, children, execs, told, ends[2], its_exit = -1, shells_exit = -1;

static int target(void)
{
	raise(SIGUSR1);
	dprintf(3, "%d %d\n", getpid(), getppid());
	return 7;
}

static void start(const char *path)
{
	char command[4200];
	snprintf(command, sizeof command, "'%s' target; exit $?", path);
	ptrace(PT_TRACE_ME, 0, 0, 0);
	dup2(ends[1], 3);
	execl("/bin/sh", "sh", "-c", command, (char *)NULL);
	_exit(99);
}

static void stopped(pid_t pid, int status)
{
	struct ptrace_lwpinfo info;
	ptrace(PT_LWPINFO, pid, (caddr_t)&info, sizeof info);
	if (pid == shell && execs == 0)
		ptrace(PT_FOLLOW_FORK, shell, 0, 1);
	forks += (info.pl_flags & PL_FLAG_FORKED) != 0;
	children += (info.pl_flags & PL_FLAG_CHILD) != 0;
	execs += (info.pl_flags & PL_FLAG_EXEC) != 0;
	told += pid == child && WSTOPSIG(status) == SIGUSR1;
	if (info.pl_flags & PL_FLAG_FORKED)
		child = info.pl_child_pid;
	ptrace(PT_CONTINUE, pid, (caddr_t)1, 0);
}

int main(int argc, char **argv)
{
	char path[4096], text[40] = "";
	int status, its, parent;
	pid_t pid;

	(void)argv;
	if (argc > 1)
		return target();
	ssize_t length = readlink("/proc/self/exe", path, sizeof path - 1);
	if (length < 0 || pipe(ends) != 0)
		return 1;
	path[length] = 0;
	if ((shell = fork()) == 0)
		start(path);
	close(ends[1]);
	while ((pid = wait(&status)) > 0)
		if (WIFSTOPPED(status))
			stopped(pid, status);
		else if (pid == shell)
			shells_exit = WEXITSTATUS(status);
		else
			its_exit = WEXITSTATUS(status);
	if (read(ends[0], text, sizeof text - 1) < 0 || sscanf(text, "%d %d", &its, &parent) != 2)
		return 2;
	printf("fork %d\nchild %d\nexecs %d\nSIGUSR1 %d\n", forks, children, execs, told);
	printf("its parent is %s\n", its == child && parent == shell ? "the shell" : "another");
	printf("target %d\nshell %d\n", its_exit, shells_exit);
	return 0;
}
