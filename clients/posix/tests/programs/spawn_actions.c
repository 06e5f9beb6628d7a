/* posix_spawn(3): files that are opened, copied and closed in the child, its mask and default actions, and what it refuses.
 *
 * prints: child|refused
 * schedules: 5
 */
#define _GNU_SOURCE
#include <errno.h>
#include <fcntl.h>
#include <signal.h>
#include <spawn.h>
#include <stdio.h>
#include <stdlib.h>
#include <string.h>
#include <sys/wait.h>
#include <unistd.h>

#define CHECK(holds) ((holds) ? (void)0 : (printf("line %d: %s, errno %d\n", __LINE__, #holds, errno), exit(1)))

enum { KEPT = 20, CLOSED, OPENED, COPY };

static int child(void)
{
	struct sigaction action;
	sigset_t mask;
	CHECK(fcntl(KEPT, F_GETFD) == 0 && fcntl(CLOSED, F_GETFD) == -1 && errno == EBADF);
	CHECK(fcntl(OPENED, F_GETFL) >= 0 && (fcntl(OPENED, F_GETFL) & O_ACCMODE) == O_WRONLY);
	CHECK((fcntl(COPY, F_GETFL) & O_ACCMODE) == O_WRONLY && write(COPY, "x", 1) == 1);
	CHECK(sigprocmask(SIG_BLOCK, NULL, &mask) == 0 && sigismember(&mask, SIGUSR1) == 1 && sigismember(&mask, SIGTERM) == 0);
	CHECK(sigaction(SIGUSR2, NULL, &action) == 0 && action.sa_handler == SIG_DFL);
	CHECK(sigaction(SIGHUP, NULL, &action) == 0 && action.sa_handler == SIG_IGN);
	puts("child");
	return 7;
}

int main(int argc, char **argv)
{
	posix_spawn_file_actions_t actions, bad;
	posix_spawnattr_t attributes;
	char *words[] = {argv[0], "child", NULL}, *environment[] = {NULL};
	sigset_t set;
	pid_t pid;
	int status;
	if (argc > 1)
		return child();
	CHECK(signal(SIGUSR2, SIG_IGN) != SIG_ERR && signal(SIGHUP, SIG_IGN) != SIG_ERR);
	CHECK(open("/dev/null", O_RDONLY) >= 0 && dup3(0, KEPT, O_CLOEXEC) == KEPT && dup2(0, CLOSED) == CLOSED);
	CHECK(posix_spawn_file_actions_init(&actions) == 0 && posix_spawnattr_init(&attributes) == 0);
	CHECK(posix_spawn_file_actions_adddup2(&actions, KEPT, KEPT) == 0); /* FD_CLOEXEC goes */
	CHECK(posix_spawn_file_actions_addclose(&actions, CLOSED) == 0);
	CHECK(posix_spawn_file_actions_addopen(&actions, OPENED, "/dev/null", O_WRONLY, 0) == 0);
	CHECK(posix_spawn_file_actions_adddup2(&actions, OPENED, COPY) == 0);
	sigemptyset(&set), sigaddset(&set, SIGUSR1);
	CHECK(posix_spawnattr_setsigmask(&attributes, &set) == 0);
	sigemptyset(&set), sigaddset(&set, SIGUSR2);
	CHECK(posix_spawnattr_setsigdefault(&attributes, &set) == 0);
	CHECK(posix_spawnattr_setflags(&attributes, POSIX_SPAWN_SETSIGMASK | POSIX_SPAWN_SETSIGDEF) == 0);
	CHECK(posix_spawn(&pid, argv[0], &actions, &attributes, words, environment) == 0);
	CHECK(waitpid(pid, &status, 0) == pid && WIFEXITED(status) && WEXITSTATUS(status) == 7);
	CHECK(posix_spawn_file_actions_init(&bad) == 0 && posix_spawn_file_actions_adddup2(&bad, -1, 4) == EBADF);
	CHECK(posix_spawn_file_actions_addopen(&bad, 4, "/nowhere/at/all", O_RDONLY, 0) == 0);
	CHECK(posix_spawn(&pid, argv[0], &bad, NULL, words, environment) == ENOENT);
	CHECK(posix_spawn(&pid, "/nowhere/at/all", NULL, NULL, words, environment) == ENOENT);
	CHECK(waitpid(-1, &status, 0) == -1 && errno == ECHILD);
	CHECK(posix_spawn_file_actions_destroy(&actions) == 0 && posix_spawn_file_actions_destroy(&bad) == 0);
	CHECK(posix_spawnattr_destroy(&attributes) == 0);
	puts("refused");
	return 0;
}
