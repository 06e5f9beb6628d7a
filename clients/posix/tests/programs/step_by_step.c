/* A debugger steps over five calls.
 * natively: no
 * schedules: 40 */
#include <sys/types.h>
#include <sys/ptrace.h>
#include <sys/wait.h>
#include <signal.h>
#include <unistd.h>
int main(void)
{
	int s;
	pid_t c = fork();
	if (c == 0) {
		ptrace(PT_TRACE_ME, 0, 0, 0);
		raise(SIGSTOP);
		for (int i = 0; i < 5; i++)
			getppid();
		_exit(3);
	}
	waitpid(c, &s, 0);
	for (int i = 0; i < 5; i++) {
		ptrace(PT_GETNUMLWPS, c, 0, 0);
		ptrace(PT_STEP, c, (caddr_t)1, 0);
		waitpid(c, &s, 0);
	}
	ptrace(PT_CONTINUE, c, (caddr_t)1, 0);
	waitpid(c, &s, 0);
	return 0;
}
