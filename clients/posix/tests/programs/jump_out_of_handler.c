/* longjmp(3) out of a handler.
 * prints: jumped */
#include <setjmp.h>
#include <signal.h>
#include <stdio.h>
#include <unistd.h>
static jmp_buf j;
static void h(int s)
{
	longjmp(j, 1);
}
int main(void)
{
	signal(SIGUSR1, h);
	if (!setjmp(j)) {
		kill(getpid(), SIGUSR1);
		puts("not here");
		return 1;
	}
	puts("jumped");
	pid_t p = getpid();
	sigset_t m;
	sigprocmask(SIG_BLOCK, 0, &m);
	return (p > 0 && sigismember(&m, SIGUSR1) >= 0 ? 0 : 2);
	return 0;
}
