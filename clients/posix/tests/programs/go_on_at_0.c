/* PT_CONTINUE with address 0 sets the program counter to 0: SIGSEGV stops the target.
 * natively: no
 * prints: 0 b7f */
#include <sys/types.h>
#include <sys/ptrace.h>
#include <sys/wait.h>
#include <signal.h>
#include <unistd.h>
#include <stdio.h>
int main(void)
{
	int s;
	pid_t c = fork();
	if (c == 0) {
		ptrace(PT_TRACE_ME, 0, 0, 0);
		raise(SIGSTOP);
		_exit(3);
	}
	waitpid(c, &s, 0);
	int r = ptrace(PT_CONTINUE, c, 0, 0);
	waitpid(c, &s, 0);
	printf("%d %x\n", r, s);
	return 0;
}
