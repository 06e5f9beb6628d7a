/* sigignore(3). */
#define _GNU_SOURCE
#include <signal.h>
#include <unistd.h>
int main(void)
{
	sigignore(SIGUSR1);
	kill(getpid(), SIGUSR1);
	return 0;
}
