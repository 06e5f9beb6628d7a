/* posix_spawn(3): its own image and sh, file actions, a mask, and a file that isn't there.
 * prints: again 1|from sh|2 0 1280 2
 * schedules: 20 */
#include <errno.h>
#include <fcntl.h>
#include <signal.h>
#include <spawn.h>
#include <stdio.h>
#include <string.h>
#include <sys/wait.h>
#include <unistd.h>
extern char **environ;
int main(int argc, char **argv)
{
	posix_spawn_file_actions_t actions;
	posix_spawnattr_t attributes;
	sigset_t mask, old;
	char text[100] = "";
	char *again[] = {argv[0], "again", NULL}, *shell[] = {"sh", "-c", "echo from sh; exit 5", NULL};
	int ends[2], status[2] = {-1, -1};
	pid_t pid;

	if (argc > 1) {
		sigprocmask(SIG_BLOCK, NULL, &old);
		printf("again %d\n", sigismember(&old, SIGUSR1));
		return 0;
	}
	sigemptyset(&mask);
	sigaddset(&mask, SIGUSR1);
	posix_spawnattr_init(&attributes);
	posix_spawnattr_setflags(&attributes, POSIX_SPAWN_SETSIGMASK);
	posix_spawnattr_setsigmask(&attributes, &mask);
	if (posix_spawn(&pid, argv[0], NULL, &attributes, again, environ) != 0)
		return 1;
	waitpid(pid, &status[0], 0);
	if (pipe(ends) != 0)
		return 2;
	posix_spawn_file_actions_init(&actions);
	posix_spawn_file_actions_adddup2(&actions, ends[1], 1);
	posix_spawn_file_actions_addclose(&actions, ends[0]);
	if (posix_spawnp(&pid, "sh", &actions, NULL, shell, environ) != 0)
		return 3;
	close(ends[1]);
	for (size_t length = 0; length < sizeof(text) - 1;) {
		ssize_t got = read(ends[0], text + length, sizeof(text) - 1 - length);
		if (got <= 0)
			break;
		length += got;
	}
	waitpid(pid, &status[1], 0);
	posix_spawn_file_actions_destroy(&actions);
	int missing = posix_spawn(&pid, "/nothing/there", NULL, NULL, again, environ);
	printf("%s%d %d %d %d\n", text, missing == ENOENT ? 2 : 0, status[0], status[1], waitpid(-1, NULL, WNOHANG) < 0 && errno == ECHILD ? 2 : 0);
	return 0;
}
