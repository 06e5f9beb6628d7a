/* The host's children of this process. As they end they are collected here, so that no zombies pile up, and the broker hears
 * how. Those whose parent has ended are the server's (start.c). */
#define _GNU_SOURCE
#include <fcntl.h>
#include <stdio.h>
#include <string.h>
#include <sys/stat.h>
#include <sys/syscall.h>
#include <unistd.h>
#include "runtime.h"

enum { CHILDREN = 1024, LIST = 65536 /* bytes */ };

static pid_t children[CHILDREN]; /* 0 is free: what has no room stays a zombie until the run's end */
static int count;

static void note(pid_t child)
{
	for (int i = 0; i < CHILDREN; i++)
		if (children[i] == 0) {
			children[i] = child;
			count++;
			return;
		}
}

/* False if it isn't one of ours, as what a sanitizer starts. */
static int forget(pid_t child)
{
	for (int i = 0; i < CHILDREN; i++)
		if (children[i] == child) {
			children[i] = 0;
			count--;
			return 1;
		}
	return 0;
}

/* A child that has ended and isn't collected; 0 if there is none. */
static pid_t first_ended(void)
{
	siginfo_t info;
	info.si_pid = 0;
	if (tracehost_host_call(SYS_waitid, (long[6]){P_ALL, 0, (long)&info, WEXITED | WNOHANG | WNOWAIT}) != 0)
		return 0;
	return info.si_pid;
}

static int collect(pid_t child)
{
	int status;
	if (waitpid(child, &status, WNOHANG) != child)
		return 0;
	tracehost_tell("0 ended %d %d", child, status);
	return 1;
}

void tracehost_collect(void)
{
	pid_t ended = count > 0 ? first_ended() : 0;
	while (ended != 0 && forget(ended)) {
		collect(ended);
		ended = count > 0 ? first_ended() : 0;
	}
	for (int i = 0; i < CHILDREN && ended != 0; i++) /* one that isn't ours is before them */
		if (children[i] != 0 && collect(children[i]))
			forget(children[i]);
}

/* The host's numbers of the thread's children, as text; it may be called in a handler. */
void tracehost_list_children(char *list, size_t size)
{
	char path[64];
	snprintf(path, sizeof path, "/proc/self/task/%d/children", (int)syscall(SYS_gettid));
	int fd = open(path, O_RDONLY | O_CLOEXEC);
	ssize_t got = fd < 0 ? 0 : read(fd, list, size - 1);
	if (fd >= 0)
		close(fd);
	list[got > 0 ? got : 0] = 0;
}

/* The image before this one has made some. */
void tracehost_find_children(void)
{
	char list[LIST];
	pid_t child;
	tracehost_list_children(list, sizeof list);
	for (char *at = list, *next; (child = strtol(at, &next, 10)) > 0; at = next)
		note(child);
}

static int is_ours(pid_t child)
{
	for (int i = 0; i < CHILDREN; i++)
		if (children[i] == child)
			return 1;
	return 0;
}

/* One that has ended, and isn't collected yet, has no file. */
static int may_run_this_program(pid_t child)
{
	char path[64];
	struct stat own_file, file;
	snprintf(path, sizeof path, "/proc/%d/exe", child);
	return stat(path, &file) != 0 ||
		   (stat("/proc/self/exe", &own_file) == 0 && file.st_dev == own_file.st_dev && file.st_ino == own_file.st_ino);
}

/* A sanitizer's process looks for leaks in this one's memory, while the thread that has started it waits. */
int tracehost_looks_for_leaks(void)
{
	char list[LIST];
	pid_t child;
	if (!tracehost_is_sanitized() || count == CHILDREN)
		return 0;
	tracehost_list_children(list, sizeof list);
	for (char *at = list, *next; (child = strtol(at, &next, 10)) > 0; at = next)
		if (!is_ours(child) && may_run_this_program(child))
			return 1;
	return 0;
}

/* fork(2) of the host. Where few processes are allowed those that are about to end are waited for. */
pid_t tracehost_host_fork(void)
{
	enum { LOOKS = 1000 };
	pid_t child;
	tracehost_collect();
	own.forking = 1;
	for (int looks = 0; (child = fork()) < 0 && errno == EAGAIN && looks < LOOKS; looks++) {
		nanosleep(&(struct timespec){0, 1000000}, NULL);
		tracehost_collect();
	}
	own.forking = 0;
	if (child < 0)
		tracehost_broken("fork");
	if (child > 0)
		note(child);
	if (child == 0) {
		memset(children, 0, sizeof children);
		count = 0;
	}
	return child;
}

/* Waits for one of them, and collects others meanwhile: its status. */
int tracehost_await_child(pid_t child)
{
	int status;
	for (;;) {
		pid_t ended = waitpid(-1, &status, 0);
		if (ended == child)
			return status;
		if (ended > 0)
			tracehost_tell("0 ended %d %d", ended, status);
		else if (errno != EINTR)
			tracehost_broken("wait");
	}
}
