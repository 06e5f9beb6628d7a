/* backtrace(3) in a handler goes past the call that was interrupted.
 * flags: -O1
 * prints: 1 1
 * schedules: 10 */
#include <execinfo.h>
#include <signal.h>
#include <stdio.h>
#include <string.h>
#include <unistd.h>
static int frames, found;
static void __attribute__((noinline)) interrupted(void)
{
	kill(getpid(), SIGUSR1);
	getppid();
}
static void handler(int number)
{
	void *at[64];

	frames = backtrace(at, 64);
	for (int i = 0; i < frames; i++)
		found += (char *)at[i] > (char *)interrupted && (char *)at[i] < (char *)interrupted + 48;
}
int main(void)
{
	signal(SIGUSR1, handler);
	interrupted();
	printf("%d %d\n", found, frames > 3);
	return 0;
}
