/* Programs that end, or don't end, in odd ways: nothing may be left of them. */
#include <sys/types.h>
#include <fcntl.h>
#include <sys/file.h>
#include <sys/mman.h>
#include <sys/wait.h>
#include <pthread.h>
#include <signal.h>
#include <stdio.h>
#include <stdlib.h>
#include <string.h>
#include <unistd.h>

static volatile int *shared;

static void
start_children(int count)
{
	int i;

	for (i = 0; i < count; i++)
		if (fork() == 0)
			for (;;)
				pause();
}

/* The host's close_range(3, ~0U, 0), past the runtime. */
static void
close_unseen(void)
{
	long result;

	__asm__ volatile("syscall" : "=a"(result) : "a"(436), "D"(3), "S"(~0U), "d"(0) : "rcx", "r11", "memory");
}

int
main(int argc, char **argv)
{
	const char *what = argc > 1 ? argv[1] : "";
	int i, made = 0, fd;
	pid_t pid;

	if (strcmp(what, "killed") == 0) {
		start_children(3);
		kill(getpid(), SIGKILL);
	} else if (strcmp(what, "hangs") == 0) { /* in a call that nobody sees: a lock that another process holds */
		start_children(3);
		if ((fd = open(argv[0], O_RDONLY)) < 0 || flock(fd, LOCK_EX) != 0)
			return (3);
		if (fork() == 0) {
			fd = open(argv[0], O_RDONLY);
			flock(fd, LOCK_EX);
			_exit(0);
		}
		for (;;)
			pause();
	} else if (strcmp(what, "spins") == 0) {
		start_children(3);
		shared = mmap(NULL, 4096, PROT_READ | PROT_WRITE, MAP_SHARED | MAP_ANON, -1, 0);
		while (*shared == 0)
			;
	} else if (strcmp(what, "asks") == 0) { /* and never pauses */
		for (;;)
			getppid();
	} else if (strcmp(what, "closes") == 0) { /* what it may close, and what is the runtime's */
		for (fd = 3; fd < 4096; fd++)
			close(fd);
		closefrom(3);
		if ((pid = fork()) == 0)
			_exit(0);
		return (waitpid(pid, NULL, 0) == pid ? 0 : 1);
	} else if (strcmp(what, "closes_all") == 0) { /* outside of the runtime */
		start_children(3);
		close_unseen();
		getpid();
	} else if (strcmp(what, "forks") == 0) {
		for (i = 0; i < 260; i++) {
			if ((pid = fork()) == 0)
				for (;;)
					pause();
			made += pid > 0;
		}
		return (made == 249 ? 0 : 1); /* with the first one there are 250 */
	} else if (strcmp(what, "prints") == 0) {
		static char line[1000];

		memset(line, 'x', sizeof(line) - 1);
		for (i = 0; i < 8000; i++)
			puts(line);
	} else if (strcmp(what, "deadlock") == 0) {
		start_children(3);
		pause();
	} else if (strcmp(what, "shell") == 0) { /* which forks two more of these */
		setenv("odd", argv[0], 1);
		execl("/bin/sh", "sh", "-c", "$odd deadlock & $odd spins & wait", (char *)NULL);
	} else if (strcmp(what, "system") == 0)
		return (system("true"));
	else if (strcmp(what, "registers") == 0)
		return (0);
	return (0);
}
