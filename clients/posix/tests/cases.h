/* What the cases have in common: children, and what is required of them. Plain FreeBSD C. */
#ifndef CASES_H
#define CASES_H

#include <sys/types.h>
#include <sys/ptrace.h>
#include <sys/wait.h>
#include <errno.h>
#include <pthread.h>
#include <signal.h>
#include <stdio.h>
#include <stdlib.h>
#include <string.h>
#include <unistd.h>
#include <atf-c.h>

/* In a child: a failure is exit status 32, and a line. */
#define CHILD_REQUIRE(e) do { if (!(e)) child_failed(__FILE__, __LINE__, #e); } while (0)

static inline void
child_failed(const char *file, int line, const char *what)
{
	char text[256];
	int length;

	length = snprintf(text, sizeof(text), "%s:%d: %s not met\n", file, line, what);
	if (write(2, text, length) != length)
		_exit(33);
	_exit(32);
}

/* A child that does this, and exits with 0. */
static inline pid_t
child(void (*body)(void))
{
	pid_t pid;

	ATF_REQUIRE((pid = fork()) != -1);
	if (pid == 0) {
		body();
		_exit(0);
	}
	return (pid);
}

static inline void
stopped_by(pid_t pid, int sig)
{
	int status;

	ATF_REQUIRE_EQ(waitpid(pid, &status, 0), pid);
	ATF_REQUIRE_MSG(WIFSTOPPED(status), "status %#x instead of a stop by %d", status, sig);
	ATF_REQUIRE_MSG(WSTOPSIG(status) == sig, "stopped by %d instead of %d", WSTOPSIG(status), sig);
}

/* A child that the caller traces, in its first stop: it does this when it goes on. */
static inline pid_t
traced_child(void (*body)(void))
{
	pid_t pid;

	ATF_REQUIRE((pid = fork()) != -1);
	if (pid == 0) {
		CHILD_REQUIRE(ptrace(PT_TRACE_ME, 0, NULL, 0) == 0);
		raise(SIGSTOP);
		body();
		_exit(0);
	}
	stopped_by(pid, SIGSTOP);
	return (pid);
}

static inline void
attach(pid_t pid)
{

	ATF_REQUIRE_EQ(ptrace(PT_ATTACH, pid, NULL, 0), 0);
	stopped_by(pid, SIGSTOP);
}

static inline void
resume(int request, pid_t pid, int sig)
{

	ATF_REQUIRE_EQ(ptrace(request, pid, (caddr_t)1, sig), 0);
}

static inline void
go_on(pid_t pid)
{

	resume(PT_CONTINUE, pid, 0);
}

/*
 * The next status, except stops by SIGCHLD. A traced process whose child stops or ends gets SIGCHLD; whether it stops for
 * that, with its action the default, isn't said in ptrace(2).
 */
static inline int
status_past_sigchld(pid_t pid)
{
	int status;

	for (;;) {
		ATF_REQUIRE_EQ(waitpid(pid, &status, 0), pid);
		if (!WIFSTOPPED(status) || WSTOPSIG(status) != SIGCHLD)
			return (status);
		go_on(pid);
	}
}

static inline void
exited(pid_t pid, int code)
{
	int status;

	status = status_past_sigchld(pid);
	ATF_REQUIRE_MSG(WIFEXITED(status) && WEXITSTATUS(status) == code, "status %#x instead of exit %d", status, code);
}

static inline void
killed(pid_t pid, int sig)
{
	int status;

	status = status_past_sigchld(pid);
	ATF_REQUIRE_MSG(WIFSIGNALED(status) && WTERMSIG(status) == sig, "status %#x instead of signal %d", status, sig);
}

/* No child is left. */
static inline void
no_child(void)
{

	ATF_REQUIRE_ERRNO(ECHILD, waitpid(-1, NULL, 0) == -1);
}

static inline struct ptrace_lwpinfo
information(pid_t pid)
{
	struct ptrace_lwpinfo pl;

	ATF_REQUIRE_EQ(ptrace(PT_LWPINFO, pid, (caddr_t)&pl, sizeof(pl)), 0);
	return (pl);
}

static inline void
events(pid_t pid, int mask)
{

	ATF_REQUIRE_EQ(ptrace(PT_SET_EVENT_MASK, pid, (caddr_t)&mask, sizeof(mask)), 0);
}

/* A pipe on which a child waits until its other end is closed. */
struct gate {
	int ends[2];
};

static inline struct gate
new_gate(void)
{
	struct gate g;

	ATF_REQUIRE_EQ(pipe(g.ends), 0);
	return (g);
}

/* In the child. */
static inline void
pass_gate(struct gate g)
{
	char c;

	close(g.ends[1]);
	CHILD_REQUIRE(read(g.ends[0], &c, 1) == 0);
	close(g.ends[0]);
}

/* In the parent. */
static inline void
open_gate(struct gate g)
{

	close(g.ends[0]);
	close(g.ends[1]);
}

#endif
