/* A program of tracehost-cc that calls the host past the runtime: it has loaded library.c, or is linked with it, or does so itself.
 *   calls loaded|linked|looks_up|instruction WHAT [NUMBER], calls executes PROGRAM ARGUMENT.. */
#include <sys/types.h>
#include <sys/wait.h>
#include <dlfcn.h>
#include <signal.h>
#include <stdio.h>
#include <stdlib.h>
#include <string.h>
#include <unistd.h>
#include "host_call.h"

#ifdef LINKED
int library_calls(const char *, int);
#endif

static int loads(const char *file, const char *what, int number)
{
	void *library = dlopen(file, RTLD_NOW);
	int (*calls)(const char *, int);

	if (library == NULL || (calls = (int (*)(const char *, int))dlsym(library, "library_calls")) == NULL)
		return (90);
	if (getppid() != 1)
		return (91);
	return (calls(what, number));
}

/* A function that is found by its name. */
static int looks_up(const char *name, const char *where)
{
	void *library = strcmp(where, "default") == 0 ? RTLD_DEFAULT
					: strcmp(where, "next") == 0  ? RTLD_NEXT
												  : dlopen("libc.so.6", RTLD_NOW);
	long (*call)(long, long, long, long) = (long (*)(long, long, long, long))dlsym(library, name);

	if (call == NULL)
		return (90);
	call(-1, 0, 1 /* WNOHANG */, 0);
	return (0);
}

/* By its number of the host's. */
static int by_instruction(const char *number)
{
	int status = 0;

	host_call(atol(number), atol(number) == 14 ? 0 : -1, (long)&status, 1, 8);
	return (0);
}

/* The exit code of a program that may have no runtime. */
static int executes(char **words)
{
	int status;
	pid_t pid = fork();

	if (pid == 0) {
		execv(words[0], words);
		_exit(99);
	}
	if (waitpid(pid, &status, 0) != pid)
		return (98);
	return (WIFEXITED(status) ? WEXITSTATUS(status) : 97);
}

int main(int argc, char **argv)
{
	const char *how = argc > 1 ? argv[1] : "", *what = argc > 2 ? argv[2] : "";
	int number = argc > 3 ? atoi(argv[3]) : 0;

	getpid();
	if (strcmp(how, "loaded") == 0)
		return (loads("./liboutside.so", what, number));
#ifdef LINKED
	if (strcmp(how, "linked") == 0)
		return (library_calls(what, number));
#endif
	if (strcmp(how, "looks_up") == 0)
		return (looks_up(what, argv[3]));
	if (strcmp(how, "instruction") == 0)
		return (by_instruction(what));
	if (strcmp(how, "executes") == 0)
		return (executes(argv + 2));
	return (0);
}
