/* Process groups and sessions: setpgid(2), setsid(2), and kill(2) and wait(2) of a group. */
#include "debugger.h"
#include <spawn.h>

static volatile sig_atomic_t caught;
static void note(int sig) { caught = sig; }

/* A child in the group of another one, or in one of its own. */
static pid_t
start_in(pid_t group)
{
	pid_t pid = start(sleep_for_ever);

	ATF_REQUIRE(setpgid(pid, group) == 0);
	return (pid);
}

static void
end_group(pid_t group, int count)
{
	int status;

	ATF_REQUIRE(killpg(group, SIGKILL) == 0);
	while (count-- > 0)
		ATF_REQUIRE(waitpid(-group, &status, 0) > 0 && WIFSIGNALED(status) && WTERMSIG(status) == SIGKILL);
}

static void
inherits(void)
{
	CHILD_REQUIRE(getpgrp() == getpgid(getppid()) && getsid(0) == getsid(getppid()));
	CHILD_REQUIRE(setpgid(0, 0) == 0 && getpgrp() == getpid() && getpgid(0) == getpid());
}

ATF_TC_WITHOUT_HEAD(child_inherits);
ATF_TC_BODY(child_inherits, tc)
{
	ATF_REQUIRE(wait_exit(start(inherits), 0));
}

ATF_TC_WITHOUT_HEAD(parent_sets_group);
ATF_TC_BODY(parent_sets_group, tc)
{
	pid_t first = start_in(0), second = start_in(first);

	ATF_REQUIRE(getpgid(first) == first && getpgid(second) == first);
	ATF_REQUIRE(setpgid(second, second) == 0 && getpgid(second) == second);
	end_group(first, 1);
	end_group(second, 1);
}

ATF_TC_WITHOUT_HEAD(setpgid_errors);
ATF_TC_BODY(setpgid_errors, tc)
{
	ATF_REQUIRE_ERRNO(EINVAL, setpgid(0, -1) == -1);
	ATF_REQUIRE_ERRNO(ESRCH, setpgid(getppid(), 0) == -1);
	ATF_REQUIRE_ERRNO(EPERM, setpgid(0, 99998) == -1);
	ATF_REQUIRE_ERRNO(ESRCH, getpgid(99998) == -1);
	ATF_REQUIRE_ERRNO(ESRCH, getsid(99998) == -1);
}

static void
lead_session(void)
{
	CHILD_REQUIRE(setsid() == getpid() && getpgrp() == getpid() && getsid(0) == getpid());
	CHILD_REQUIRE(setsid() == -1 && errno == EPERM);
	CHILD_REQUIRE(setpgid(0, 0) == -1 && errno == EPERM);
	sleep_for_ever();
}

/* Its parent can't move it back, nor into a group of another session. */
ATF_TC_WITHOUT_HEAD(session_of_its_own);
ATF_TC_BODY(session_of_its_own, tc)
{
	pid_t pid = start(lead_session);

	while (getsid(pid) != pid)
		usleep(1000);
	ATF_REQUIRE_ERRNO(EPERM, setpgid(pid, getpgrp()) == -1);
	ATF_REQUIRE_ERRNO(EPERM, setpgid(0, pid) == -1);
	end_group(pid, 1);
}

static void
kill_own_group(void)
{
	pid_t pid;
	int status;

	CHILD_REQUIRE(setpgid(0, 0) == 0 && signal(SIGUSR1, note) != SIG_ERR);
	if ((pid = fork()) == 0)
		sleep_for_ever();
	CHILD_REQUIRE(kill(0, SIGUSR1) == 0 && caught == SIGUSR1);
	CHILD_REQUIRE(kill(pid, SIGKILL) == 0 && waitpid(0, &status, 0) == pid);
	CHILD_REQUIRE(kill(0, SIGTERM) == 0);
}

/* Of the caller's own group all members get it, the caller too. */
ATF_TC_WITHOUT_HEAD(kill_of_0);
ATF_TC_BODY(kill_of_0, tc)
{
	ATF_REQUIRE(signal(SIGUSR1, SIG_IGN) != SIG_ERR);
	ATF_REQUIRE(wait_signaled(start(kill_own_group), SIGTERM));
}

ATF_TC_WITHOUT_HEAD(kill_of_another_group);
ATF_TC_BODY(kill_of_another_group, tc)
{
	pid_t first = start_in(0), other = start_in(0);
	int status;

	start_in(first);
	ATF_REQUIRE(kill(-first, 0) == 0);
	end_group(first, 2);
	ATF_REQUIRE_ERRNO(ESRCH, kill(-first, 0) == -1);
	ATF_REQUIRE(waitpid(other, &status, WNOHANG) == 0);
	end_group(other, 1);
	ATF_REQUIRE_ERRNO(EINVAL, kill(0, 129) == -1);
}

static void exits_with_2(void) { _exit(2); }

/* A wait for a group leaves the children of others. */
ATF_TC_WITHOUT_HEAD(wait_for_group);
ATF_TC_BODY(wait_for_group, tc)
{
	pid_t other = start_in(0), here = start(exits_with_2);
	int status;

	ATF_REQUIRE(waitpid(-other, &status, WNOHANG) == 0);
	ATF_REQUIRE(waitpid(0, &status, 0) == here && status == EXITED_WITH(2));
	ATF_REQUIRE_ERRNO(ECHILD, waitpid(0, &status, 0) == -1);
	end_group(other, 1);
	ATF_REQUIRE_ERRNO(ECHILD, waitpid(-other, &status, 0) == -1);
}

/* A debugger puts its target into a group, and waits for that. */
ATF_TC_WITHOUT_HEAD(traced_group);
ATF_TC_BODY(traced_group, tc)
{
	pid_t pid = start_traced(sleep_for_ever);
	int status;

	ATF_REQUIRE(setpgid(pid, 0) == 0 && go_on(pid) && kill(-pid, SIGUSR2) == 0);
	ATF_REQUIRE(waitpid(-pid, &status, 0) == pid && status == STOPPED_BY(SIGUSR2));
	ATF_REQUIRE(request(PT_CONTINUE, pid, SIGUSR2));
	ATF_REQUIRE(waitpid(-pid, &status, 0) == pid && WIFSIGNALED(status) && WTERMSIG(status) == SIGUSR2);
}

ATF_TC_WITHOUT_HEAD(spawned_group);
ATF_TC_BODY(spawned_group, tc)
{
	char name[] = "true", *words[] = { name, NULL }, *none[] = { NULL };
	posix_spawnattr_t attributes;
	pid_t pid;
	int status;

	ATF_REQUIRE(posix_spawnattr_init(&attributes) == 0 && posix_spawnattr_setpgroup(&attributes, 0) == 0);
	ATF_REQUIRE(posix_spawnattr_setflags(&attributes, POSIX_SPAWN_SETPGROUP) == 0);
	ATF_REQUIRE(posix_spawn(&pid, "/usr/bin/true", NULL, &attributes, words, none) == 0);
	ATF_REQUIRE_ERRNO(ECHILD, waitpid(0, &status, 0) == -1);
	ATF_REQUIRE(waitpid(-pid, &status, 0) == pid && status == EXITED_WITH(0));
}

ATF_TP_ADD_TCS(tp)
{
	ATF_TP_ADD_TC(tp, child_inherits);
	ATF_TP_ADD_TC(tp, parent_sets_group);
	ATF_TP_ADD_TC(tp, setpgid_errors);
	ATF_TP_ADD_TC(tp, session_of_its_own);
	ATF_TP_ADD_TC(tp, kill_of_0);
	ATF_TP_ADD_TC(tp, kill_of_another_group);
	ATF_TP_ADD_TC(tp, wait_for_group);
	ATF_TP_ADD_TC(tp, traced_group);
	ATF_TP_ADD_TC(tp, spawned_group);
	return (atf_no_error());
}
