/* sigaltstack(2): a handler on the other stack, and one of a stack that is used up.
 * prints: 1 0 1|jumped
 * schedules: 20 */
#include <setjmp.h>
#include <signal.h>
#include <stdio.h>
#include <stdlib.h>
#include <unistd.h>
enum { SIZE = 65536 };
static char *other;
static int was_on;
static sigjmp_buf jump;
static void note(int number)
{
	char here;

	was_on = &here >= other && &here < other + SIZE;
}
static void leave(int number)
{
	siglongjmp(jump, 1);
}
static int deeper(int depth)
{
	volatile char page[4096];

	page[0] = depth;
	return deeper(depth + 1) + page[0];
}
static void handle(int number, void (*handler)(int), int flags)
{
	struct sigaction action = {.sa_flags = flags};

	action.sa_handler = handler;
	sigaction(number, &action, NULL);
}
int main(void)
{
	stack_t stack = {.ss_size = SIZE}, now;
	int on, off;

	stack.ss_sp = other = malloc(SIZE);
	if (sigaltstack(&stack, NULL) != 0)
		return 1;
	handle(SIGUSR1, note, SA_ONSTACK);
	raise(SIGUSR1);
	on = was_on;
	handle(SIGUSR1, note, 0);
	raise(SIGUSR1);
	off = was_on;
	sigaltstack(NULL, &now);
	printf("%d %d %d\n", on, off, now.ss_sp == other && now.ss_flags == 0);
	fflush(stdout);
	handle(SIGSEGV, leave, SA_ONSTACK);
	if (sigsetjmp(jump, 1) == 0)
		return deeper(0);
	puts("jumped");
	return 0;
}
