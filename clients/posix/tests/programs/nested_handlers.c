/* Handlers within handlers, by raise and by kill in turn.
 *
 * prints: 500 levels
 * schedules: 20
 */
#include <signal.h>
#include <stdio.h>
#include <string.h>
#include <unistd.h>

#ifndef LEVELS
#define LEVELS 500
#endif

static volatile int depth, deepest;

static void deeper(int number)
{
	if (++depth > deepest)
		deepest = depth;
	if (depth < LEVELS && depth % 2 != 0)
		raise(number);
	else if (depth < LEVELS)
		kill(getpid(), number);
	depth--;
}

int main(void)
{
	struct sigaction action;
	memset(&action, 0, sizeof action);
	action.sa_handler = deeper;
	action.sa_flags = SA_NODEFER;
	sigaction(SIGUSR1, &action, NULL);
	raise(SIGUSR1);
	printf("%d levels\n", deepest);
	return depth;
}
