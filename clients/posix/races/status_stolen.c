/*
 * A debugger whose main loop waits for any child, and that runs a helper in a thread.
 *
 * The race: the main loop may take the helper's status, and the thread that waits for the helper gets ECHILD.
 * The remedy: the main loop waits for its target by number.
 */
#include "races.h"

static int trouble;

static void *
run_helper(void *arg)
{
	pid_t pid;
	int status;

	usleep(1000);
	if ((pid = fork()) == 0)
		_exit(3);
	if (waitpid(pid, &status, 0) != pid || WEXITSTATUS(status) != 3)
		trouble = 1;
	return (arg);
}

int
main(void)
{
	pthread_t t;
	pid_t pid, got;
	int status;

	pid = start_target(2);
	if (pthread_create(&t, NULL, run_helper, NULL) != 0)
		err(1, "pthread_create");
	for (;;) {
#ifdef RIGHT
		got = waitpid(pid, &status, 0);
#else
		got = waitpid(-1, &status, 0);
#endif
		if (got == pid && WIFEXITED(status))
			break;
		if (got == pid)
			request(PT_CONTINUE, pid, 0);
	}
	pthread_join(t, NULL);
	if (trouble)
		errx(1, "the helper's status was taken");
	return (0);
}
