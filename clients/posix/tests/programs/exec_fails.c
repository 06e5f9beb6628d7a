/* Programs that can't be executed, and what execve(2) and its kin take for no environment.
 * prints: directory 13, text 8, none 2, too much 7|script of sh: one two|again 1
 * schedules: 20 */
#include <errno.h>
#include <fcntl.h>
#include <spawn.h>
#include <stdio.h>
#include <stdlib.h>
#include <string.h>
#include <sys/stat.h>
#include <sys/wait.h>
#include <unistd.h>

static int error_of(const char *path, char **words)
{
	execve(path, words, NULL);
	return errno;
}

int main(int argc, char **argv)
{
	char *words[42] = {argv[0], "again", NULL}, script[4096], text[] = "echo script of sh: $1 $2\n";
	const char *folder = getenv("TMPDIR");
	int fd, status = 0;

	if (argc > 1)
		return printf("again %d\n", argc - 1) < 0;
	snprintf(script, sizeof script, "%s/exec_fails.XXXXXX", folder != NULL ? folder : "/tmp");
	fd = mkstemp(script);
	if (fd < 0 || fchmod(fd, 0700) != 0 || write(fd, text, strlen(text)) < 0 || close(fd) != 0)
		return 2;
	printf("directory %d, text %d, none %d, ", error_of("/", words), error_of(script, words), error_of("/nonexistent", words));
	for (int i = 1; i < 41; i++) {
		words[i] = malloc(100001);
		memset(words[i], 'x', 100000);
		words[i][100000] = 0;
	}
	printf("too much %d\n", error_of(argv[0], words));
	fflush(stdout);
	if (fork() == 0) {
		execlp(script, script, "one", "two", NULL);
		_exit(3);
	}
	wait(&status);
	unlink(script);
	words[1] = "again", words[2] = NULL;
	if (fork() == 0)
		execve(argv[0], words, NULL);
	wait(NULL);
	return WEXITSTATUS(status);
}
