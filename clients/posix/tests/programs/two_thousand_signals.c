/* 2000 signals to oneself.
 * prints: 2000 */
#include <signal.h>
#include <unistd.h>
#include <stdio.h>
static volatile int n;
static void h(int s)
{
	n++;
}
int main(void)
{
	signal(SIGUSR1, h);
	for (int i = 0; i < 2000; i++)
		kill(getpid(), SIGUSR1);
	printf("%d\n", n);
	return n != 2000;
}
