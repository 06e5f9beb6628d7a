/* An exec in a handler within 500 others, three times: what the handlers stood in is forgotten.
 *
 * prints: 3 images
 * schedules: 20
 */
#include <signal.h>
#include <stdio.h>
#include <stdlib.h>
#include <string.h>
#include <unistd.h>

enum { LEVELS = 500, IMAGES = 3 };

static volatile int depth;
static char *program, next[16];

static void deeper(int number)
{
	if (++depth == LEVELS)
		execl(program, program, next, (char *)0);
	raise(number);
}

int main(int argc, char **argv)
{
	struct sigaction action;
	int image = argc > 1 ? atoi(argv[1]) : 0;
	if (image == IMAGES) {
		printf("%d images\n", image);
		return 0;
	}
	program = argv[0];
	sprintf(next, "%d", image + 1);
	memset(&action, 0, sizeof action);
	action.sa_handler = deeper;
	action.sa_flags = SA_NODEFER;
	sigaction(SIGUSR1, &action, NULL);
	raise(SIGUSR1);
	return 1;
}
