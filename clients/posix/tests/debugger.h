/* What most cases share: a child that asks to be traced, and the waits of its debugger. */
#ifndef DEBUGGER_H
#define DEBUGGER_H

#include <sys/param.h>
#include <sys/types.h>
#include <sys/ptrace.h>
#include <sys/wait.h>
#include <errno.h>
#include <signal.h>
#include <stdbool.h>
#include <stdio.h>
#include <stdlib.h>
#include <string.h>
#include <unistd.h>
#include <atf-c.h>

#define CHILD_FAILED 99

/* ATF's checks belong to the test's own process. One in a child ends that with an exit code of its own. */
#define CHILD_REQUIRE(e) do { \
	if (!(e)) { \
		fprintf(stderr, "%s:%d: %s not met in process %d\n", __FILE__, __LINE__, #e, (int)getpid()); \
		_exit(CHILD_FAILED); \
	} \
} while (0)

/* In a child: its parent traces it from now on, and sees a stop by SIGSTOP first. */
static inline void
trace_me(void)
{
	CHILD_REQUIRE(ptrace(PT_TRACE_ME, 0, NULL, 0) == 0);
	CHILD_REQUIRE(raise(SIGSTOP) == 0);
}

/* A child that runs `body` and then exits with 0. */
static inline pid_t
start(void (*body)(void))
{
	pid_t pid = fork();

	ATF_REQUIRE(pid != -1);
	if (pid == 0) {
		body();
		_exit(0);
	}
	return (pid);
}

/* A process whose child exits with 2 exits with 1 then. */
static inline void
see_child_exit(pid_t pid)
{
	int status;

	CHILD_REQUIRE(waitpid(pid, &status, 0) == pid);
	CHILD_REQUIRE(WIFEXITED(status) && WEXITSTATUS(status) == 2);
	_exit(1);
}

static inline void
fork_once(void)
{
	pid_t pid = fork();

	CHILD_REQUIRE(pid != -1);
	if (pid == 0)
		_exit(2);
	see_child_exit(pid);
}

/* The next status of a process has to be this one. */
static inline bool
reports(pid_t pid, int wanted)
{
	int status = 0;
	pid_t got = waitpid(pid, &status, 0);

	if (got == pid && status == wanted)
		return (true);
	fprintf(stderr, "waitpid of %d: %d with status %#x instead of %#x (errno %d)\n", (int)pid, (int)got, status, wanted, errno);
	return (false);
}

#define STOPPED_BY(sig) ((sig) << 8 | 0x7f)
#define EXITED_WITH(code) ((code) << 8)

static inline bool wait_stop(pid_t pid, int sig) { return (reports(pid, STOPPED_BY(sig))); }
static inline bool wait_exit(pid_t pid, int code) { return (reports(pid, EXITED_WITH(code))); }

/* An end by a signal, with or without a core image. */
static inline bool
wait_signaled(pid_t pid, int sig)
{
	int status = 0;

	return (waitpid(pid, &status, 0) == pid && WIFSIGNALED(status) && WTERMSIG(status) == sig);
}

/* Nothing is left to wait for. */
static inline bool
no_child_left(void)
{
	int status;

	return (wait(&status) == -1 && errno == ECHILD);
}

/* A child that is traced from its start, in its first stop, and runs `body` when it goes on. */
static inline pid_t
start_traced(void (*body)(void))
{
	pid_t pid = fork();

	ATF_REQUIRE(pid != -1);
	if (pid == 0) {
		trace_me();
		body();
		_exit(0);
	}
	ATF_REQUIRE(wait_stop(pid, SIGSTOP));
	return (pid);
}

/* A child that another process has attached to stops by SIGSTOP. */
static inline bool
attach(pid_t pid)
{
	return (ptrace(PT_ATTACH, pid, NULL, 0) == 0 && wait_stop(pid, SIGSTOP));
}

/* A request that lets the process go on where it is, with a signal or with 0. */
static inline bool
request(int number, pid_t pid, int sig)
{
	return (ptrace(number, pid, (caddr_t)1, sig) == 0);
}

static inline bool go_on(pid_t pid) { return (request(PT_CONTINUE, pid, 0)); }

/* PT_LWPINFO of a process or an LWP. */
static inline struct ptrace_lwpinfo
info(pid_t id)
{
	struct ptrace_lwpinfo pl;

	memset(&pl, 0, sizeof(pl));
	ATF_REQUIRE(ptrace(PT_LWPINFO, id, (caddr_t)&pl, sizeof(pl)) == 0);
	return (pl);
}

static inline int
flags(pid_t id)
{
	return (info(id).pl_flags);
}

static inline void
set_events(pid_t pid, int events)
{
	ATF_REQUIRE(ptrace(PT_SET_EVENT_MASK, pid, (caddr_t)&events, sizeof(events)) == 0);
}

/*
 * The status of a process whose own children end. A tracer may see their
 * SIGCHLD as a stop, and lets its process go on.
 */
static inline pid_t
wait_past_sigchld(pid_t pid, int *status)
{
	pid_t got;

	while ((got = waitpid(pid, status, 0)) > 0 && *status == STOPPED_BY(SIGCHLD))
		ATF_REQUIRE(go_on(got));
	return (got);
}

static inline bool
wait_exit_past_sigchld(pid_t pid, int code)
{
	int status = 0;

	return (wait_past_sigchld(pid, &status) == pid && status == EXITED_WITH(code));
}

static inline void sleep_for_ever(void) { for (;;) pause(); }

/* Two ends of a pipe, to order two processes: one waits until the other has let it go, or has closed its end. */
static inline void
release(int fd)
{
	char byte = 1;

	if (write(fd, &byte, 1) != 1)
		_exit(CHILD_FAILED);
}

static inline bool
await_release(int fd)
{
	char byte;

	return (read(fd, &byte, 1) == 1);
}

#endif
