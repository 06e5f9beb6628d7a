/* sighold(3). */
#define _GNU_SOURCE
#include <signal.h>
#include <stdio.h>
#include <unistd.h>
static int n;
static void h(int x)
{
	n++;
}
int main(void)
{
	signal(SIGUSR1, h);
	sighold(SIGUSR1);
	kill(getpid(), SIGUSR1);
	return n;
}
