/* A debugger that stops a shell at its calls sees its kill, which ends the target.
 * natively: no
 * prints: kill 1|shell 0|target 15
 * schedules: 20 */
#include <sys/types.h>
#include <sys/ptrace.h>
#include <sys/syscall.h>
#include <sys/wait.h>
#include <signal.h>
#include <stdio.h>
#include <unistd.h>

int main(void)
{
	char command[40];
	int status, kills = 0;
	pid_t target = fork();
	if (target == 0)
		for (;;)
			pause();
	snprintf(command, sizeof command, "kill %d", target);
	pid_t shell = fork();
	if (shell == 0) {
		ptrace(PT_TRACE_ME, 0, 0, 0);
		execl("/bin/sh", "sh", "-c", command, (char *)NULL);
		_exit(99);
	}
	while (waitpid(shell, &status, 0) == shell && WIFSTOPPED(status)) {
		struct ptrace_lwpinfo info;
		ptrace(PT_LWPINFO, shell, (caddr_t)&info, sizeof info);
		kills += info.pl_flags & PL_FLAG_SCE && info.pl_syscall_code == SYS_kill;
		ptrace(PT_SYSCALL, shell, (caddr_t)1, 0);
	}
	printf("kill %d\nshell %d\n", kills, WEXITSTATUS(status));
	waitpid(target, &status, 0);
	printf("target %d\n", WTERMSIG(status));
	return 0;
}
