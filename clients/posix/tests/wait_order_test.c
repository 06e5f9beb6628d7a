/*
 * Which child a wait for any reports first isn't said in wait(2): a debugger
 * takes any order. And SIGCHLD, which is discarded, stops no traced process.
 */
#include "debugger.h"

/* Both stops of a fork, in either order, by waits for any child: the child's number. */
static pid_t
take_fork_stops(pid_t parent)
{
	pid_t child = -1, named = -1, pid;
	int status;

	ATF_REQUIRE(ptrace(PT_FOLLOW_FORK, parent, NULL, 1) == 0);
	ATF_REQUIRE(go_on(parent));
	for (int i = 0; i < 2; i++) {
		ATF_REQUIRE((pid = wait(&status)) > 0);
		ATF_REQUIRE(WIFSTOPPED(status));
		if (flags(pid) & PL_FLAG_CHILD) {
			ATF_REQUIRE(pid != parent && WSTOPSIG(status) == SIGSTOP);
			child = pid;
		} else {
			ATF_REQUIRE(pid == parent && WSTOPSIG(status) == SIGTRAP);
			ATF_REQUIRE(flags(pid) & PL_FLAG_FORKED);
			named = info(pid).pl_child_pid;
		}
	}
	ATF_REQUIRE(child != -1 && child == named);
	return (child);
}

static void
require_exit(pid_t pid, int code)
{
	int status;

	ATF_REQUIRE(wait(&status) == pid);
	ATF_REQUIRE(status == EXITED_WITH(code));
}

ATF_TC_WITHOUT_HEAD(fork_stops_in_any_order);
ATF_TC_BODY(fork_stops_in_any_order, tc)
{
	pid_t parent = start_traced(fork_once), child = take_fork_stops(parent);

	ATF_REQUIRE(go_on(parent));
	ATF_REQUIRE(go_on(child));
	ATF_REQUIRE(wait_exit(child, 2));
	require_exit(parent, 1);
	ATF_REQUIRE(no_child_left());
}

ATF_TC_WITHOUT_HEAD(detached_child_wakes_no_debugger);
ATF_TC_BODY(detached_child_wakes_no_debugger, tc)
{
	pid_t parent = start_traced(fork_once), child = take_fork_stops(parent);

	ATF_REQUIRE(request(PT_DETACH, child, 0));
	ATF_REQUIRE(go_on(parent));
	require_exit(parent, 1);
	ATF_REQUIRE(no_child_left());
}

ATF_TC_WITHOUT_HEAD(three_zombies_in_any_order);
ATF_TC_BODY(three_zombies_in_any_order, tc)
{
	pid_t pids[3], pid;
	int seen = 0, status;

	for (int i = 0; i < 3; i++) {
		ATF_REQUIRE((pids[i] = fork()) != -1);
		if (pids[i] == 0)
			_exit(i);
	}
	for (int i = 0; i < 3; i++) {
		ATF_REQUIRE((pid = wait(&status)) > 0 && WIFEXITED(status));
		ATF_REQUIRE(pid == pids[WEXITSTATUS(status)]);
		ATF_REQUIRE((seen & 1 << WEXITSTATUS(status)) == 0);
		seen |= 1 << WEXITSTATUS(status);
	}
	ATF_REQUIRE(seen == 7 && no_child_left());
}

static volatile sig_atomic_t chld;

static void
note_chld(int sig)
{
	(void)sig;
	chld = 1;
}

static void
five_children(void)
{
	for (int i = 0; i < 5; i++) {
		pid_t pid = fork();

		CHILD_REQUIRE(pid != -1);
		if (pid == 0)
			_exit(0);
		CHILD_REQUIRE(waitpid(pid, NULL, 0) == pid);
	}
}

/* The debugger hears only of the end: nothing comes for the tracee's own children. */
ATF_TC_WITHOUT_HEAD(no_sigchld_for_a_tracees_children);
ATF_TC_BODY(no_sigchld_for_a_tracees_children, tc)
{
	sigset_t set, old;
	pid_t pid = start_traced(five_children);
	int status;

	ATF_REQUIRE(signal(SIGCHLD, note_chld) != SIG_ERR);
	sigemptyset(&set);
	sigaddset(&set, SIGCHLD);
	ATF_REQUIRE(sigprocmask(SIG_BLOCK, &set, &old) == 0);
	chld = 0;
	ATF_REQUIRE(go_on(pid));
	while (chld == 0)
		sigsuspend(&old);
	ATF_REQUIRE(waitpid(pid, &status, WNOHANG) == pid);
	ATF_REQUIRE(status == EXITED_WITH(0));
}

static void
handle_chld(void)
{
	CHILD_REQUIRE(signal(SIGCHLD, note_chld) != SIG_ERR);
	CHILD_REQUIRE(kill(getpid(), SIGCHLD) == 0);
	CHILD_REQUIRE(chld == 1);
}

ATF_TC_WITHOUT_HEAD(caught_sigchld_stops);
ATF_TC_BODY(caught_sigchld_stops, tc)
{
	pid_t pid = start_traced(handle_chld);

	ATF_REQUIRE(go_on(pid));
	ATF_REQUIRE(wait_stop(pid, SIGCHLD));
	ATF_REQUIRE(request(PT_CONTINUE, pid, SIGCHLD));
	ATF_REQUIRE(wait_exit(pid, 0));
}

ATF_TP_ADD_TCS(tp)
{
	ATF_TP_ADD_TC(tp, fork_stops_in_any_order);
	ATF_TP_ADD_TC(tp, detached_child_wakes_no_debugger);
	ATF_TP_ADD_TC(tp, three_zombies_in_any_order);
	ATF_TP_ADD_TC(tp, no_sigchld_for_a_tracees_children);
	ATF_TP_ADD_TC(tp, caught_sigchld_stops);
	return (atf_no_error());
}
