/* A shell's commands with the runtime are processes of the model, whose parent is the shell's: by themselves, in the
 * background, in pipelines, in subshells, by other programs. The shell hears how they end, and its kill ends them.
 * natively: no
 * prints: status 0 child|7|0 1 2|got in|hello|from sh|abc|143|137|143 kills $!|42 by env|by|child of 1|first status 4|8 in a file
 * schedules: 50 */
#include <sys/types.h>
#include <sys/ptrace.h>
#include <sys/wait.h>
#include <signal.h>
#include <stdio.h>
#include <stdlib.h>
#include <string.h>
#include <unistd.h>

static int copy(void)
{
	char text[100];
	ssize_t got;
	while ((got = read(0, text, sizeof text)) > 0)
		if (write(1, text, (size_t)got) != got)
			return 1;
	return 0;
}

static int command(char **words)
{
	const int number = words[1] != NULL ? atoi(words[1]) : 0;
	if (strcmp(words[0], "exit") == 0)
		return number;
	if (strcmp(words[0], "kill") == 0)
		raise(number);
	if (strcmp(words[0], "say") == 0)
		return dprintf(1, "%s\n", words[1]) < 0;
	if (strcmp(words[0], "copy") == 0)
		return copy();
	if (strcmp(words[0], "parent") == 0)
		return dprintf(1, "%s%s\n", words[1], getppid() == number ? "" : getppid() == 1 ? " of 1" : " of another") < 0;
	pause();
	return 1;
}

/* `$p` in it is this program. */
static int shell(const char *text)
{
	int status;
	pid_t pid = fork();
	if (pid == 0) {
		char number[20];
		snprintf(number, sizeof number, "%d", getpid());
		setenv("me", number, 1);
		execl("/bin/sh", "sh", "-c", text, (char *)NULL);
		_exit(99);
	}
	if (waitpid(pid, &status, 0) != pid)
		return -1;
	return status;
}

int main(int argc, char **argv)
{
	char path[4096];
	if (argc > 1)
		return command(argv + 1);
	ssize_t length = readlink("/proc/self/exe", path, sizeof path - 1);
	if (length < 0)
		return 1;
	path[length] = 0;
	setenv("p", path, 1);
	printf("status %d child\n", shell("[ \"$($p parent $me)\" = $me ]"));
	fflush(stdout);
	shell("$p exit 7; echo $?");
	shell("$p exit 1 & a=$!; $p exit 2 & b=$!; $p exit 0; c=$?; wait $a; a=$?; wait $b; echo $c $a $?");
	shell("x=$($p say in); echo got $x");
	shell("$p say hello | $p copy");
	shell("echo from sh | $p copy | cat | $p copy");
	shell("(printf a; $p say b | tr -d '\\n'; (echo c | $p copy))");
	shell("$p kill 15 2>/dev/null; echo $?");
	shell("$p kill 9; echo $?");
	shell("$p pause & kill $!; wait $!; echo $? 'kills $!'");
	shell("env x=y $p exit 42; echo $? by env");
	shell("printf 'all:\\n\\t@$(p) say by make\\n' | make -s -f -");
	fflush(stdout);
	const int status = shell("$p parent child & exit 4");
	while (wait(NULL) > 0)
		;
	sleep(1);
	printf("first status %d\n", WEXITSTATUS(status));
	fflush(stdout);
	shell("$p exit 8 >/dev/null </dev/null 2>&1; echo $? in a file");
	return 0;
}
