/* wait(2) and its kin. */
#include "cases.h"

static struct gate gate;
static volatile sig_atomic_t caught;

static void
note(int sig)
{

	caught = sig;
}

static void
exit_7(void)
{

	_exit(7);
}

static void
die_by_term(void)
{

	kill(getpid(), SIGTERM);
	for (;;)
		pause();
}

static void
wait_at_gate(void)
{

	pass_gate(gate);
	_exit(1);
}

ATF_TC_WITHOUT_HEAD(nobody_to_wait_for);
ATF_TC_BODY(nobody_to_wait_for, tc)
{
	int status;

	ATF_REQUIRE_ERRNO(ECHILD, wait(&status) == -1);
	ATF_REQUIRE_ERRNO(ECHILD, waitpid(getpid(), &status, 0) == -1);
	ATF_REQUIRE_ERRNO(ECHILD, waitpid(-1, &status, WNOHANG) == -1);
}

ATF_TC_WITHOUT_HEAD(exit_codes);
ATF_TC_BODY(exit_codes, tc)
{
	pid_t pid = child(exit_7);
	int status;

	ATF_REQUIRE_EQ(wait(&status), pid);
	ATF_REQUIRE(WIFEXITED(status) && !WIFSIGNALED(status) && !WIFSTOPPED(status) && !WIFCONTINUED(status));
	ATF_REQUIRE_EQ(WEXITSTATUS(status), 7);
	no_child();
}

ATF_TC_WITHOUT_HEAD(ends_by_signals);
ATF_TC_BODY(ends_by_signals, tc)
{
	pid_t pid = child(die_by_term);
	int status;

	ATF_REQUIRE_EQ(wait4(pid, &status, 0, NULL), pid);
	ATF_REQUIRE(WIFSIGNALED(status) && !WIFEXITED(status) && !WIFSTOPPED(status));
	ATF_REQUIRE_EQ(WTERMSIG(status), SIGTERM);
}

ATF_TC_WITHOUT_HEAD(WNOHANG_returns_at_once);
ATF_TC_BODY(WNOHANG_returns_at_once, tc)
{
	pid_t pid;

	gate = new_gate();
	pid = child(wait_at_gate);
	ATF_REQUIRE_EQ(waitpid(pid, NULL, WNOHANG), 0);
	ATF_REQUIRE_EQ(waitpid(-1, NULL, WNOHANG), 0);
	open_gate(gate);
	exited(pid, 1);
}

/* Waiting for one child leaves the others. */
ATF_TC_WITHOUT_HEAD(one_of_three);
ATF_TC_BODY(one_of_three, tc)
{
	pid_t pids[3];
	int i;

	for (i = 0; i < 3; i++)
		pids[i] = child(exit_7);
	exited(pids[1], 7);
	exited(pids[2], 7);
	ATF_REQUIRE_ERRNO(ECHILD, waitpid(pids[1], NULL, 0) == -1);
	exited(pids[0], 7);
	no_child();
}

ATF_TC_WITHOUT_HEAD(job_control);
ATF_TC_BODY(job_control, tc)
{
	pid_t pid;
	int status;

	gate = new_gate();
	pid = child(wait_at_gate);
	ATF_REQUIRE_EQ(kill(pid, SIGSTOP), 0);
	ATF_REQUIRE_EQ(waitpid(pid, &status, WUNTRACED), pid);
	ATF_REQUIRE(WIFSTOPPED(status) && WSTOPSIG(status) == SIGSTOP);
	ATF_REQUIRE_EQ(waitpid(pid, &status, WNOHANG | WUNTRACED), 0); /* reported once */
	ATF_REQUIRE_EQ(kill(pid, SIGCONT), 0);
	ATF_REQUIRE_EQ(waitpid(pid, &status, WCONTINUED), pid);
	ATF_REQUIRE(WIFCONTINUED(status) && !WIFSTOPPED(status) && !WIFEXITED(status) && !WIFSIGNALED(status));
	open_gate(gate);
	exited(pid, 1);
}

/* Stops aren't reported without WUNTRACED. */
ATF_TC_WITHOUT_HEAD(stop_not_asked_for);
ATF_TC_BODY(stop_not_asked_for, tc)
{
	pid_t pid;
	int status;

	gate = new_gate();
	pid = child(wait_at_gate);
	ATF_REQUIRE_EQ(kill(pid, SIGSTOP), 0);
	ATF_REQUIRE_EQ(waitpid(pid, &status, WNOHANG), 0);
	ATF_REQUIRE_EQ(kill(pid, SIGCONT), 0);
	open_gate(gate);
	exited(pid, 1);
}

/* A stop of a traced process is reported without options, and once. */
ATF_TC_WITHOUT_HEAD(trace_stop_reported_once);
ATF_TC_BODY(trace_stop_reported_once, tc)
{
	pid_t pid = traced_child(exit_7);

	ATF_REQUIRE_EQ(waitpid(pid, NULL, WNOHANG), 0);
	ATF_REQUIRE_EQ(waitpid(pid, NULL, WNOHANG | WUNTRACED), 0);
	go_on(pid);
	exited(pid, 7);
}

/* The parent of a process that another one traces gets no report of its stops. */
ATF_TC_WITHOUT_HEAD(stops_are_the_tracers);
ATF_TC_BODY(stops_are_the_tracers, tc)
{
	pid_t debugger, pid;
	struct gate attached, done;
	char c = 0;
	int status;

	gate = new_gate();
	pid = child(wait_at_gate);
	attached = new_gate();
	done = new_gate();
	ATF_REQUIRE((debugger = fork()) != -1);
	if (debugger == 0) {
		close(gate.ends[1]);
		CHILD_REQUIRE(ptrace(PT_ATTACH, pid, NULL, 0) == 0);
		CHILD_REQUIRE(waitpid(pid, &status, 0) == pid && WIFSTOPPED(status));
		CHILD_REQUIRE(write(attached.ends[1], &c, 1) == 1);
		pass_gate(done);
		CHILD_REQUIRE(ptrace(PT_DETACH, pid, (caddr_t)1, 0) == 0);
		_exit(0);
	}
	ATF_REQUIRE_EQ(read(attached.ends[0], &c, 1), 1);
	ATF_REQUIRE_EQ(waitpid(pid, &status, WNOHANG | WUNTRACED), 0);
	open_gate(done);
	exited(debugger, 0);
	open_gate(gate);
	exited(pid, 1);
}

static void
set_handler(int flags)
{
	struct sigaction act;

	memset(&act, 0, sizeof(act));
	act.sa_handler = note;
	act.sa_flags = flags;
	ATF_REQUIRE_EQ(sigaction(SIGUSR1, &act, NULL), 0);
}

static void
signal_parent(void)
{

	CHILD_REQUIRE(kill(getppid(), SIGUSR1) == 0);
	wait_at_gate();
}

/* A caught signal interrupts the wait, unless the handler restarts calls. */
ATF_TC_WITHOUT_HEAD(interrupted);
ATF_TC_BODY(interrupted, tc)
{
	sigset_t set, old;
	pid_t pid;

	gate = new_gate();
	set_handler(0);
	sigemptyset(&set);
	sigaddset(&set, SIGUSR1);
	ATF_REQUIRE_EQ(sigprocmask(SIG_BLOCK, &set, &old), 0);
	pid = child(signal_parent);
	ATF_REQUIRE_ERRNO(EINTR, sigsuspend(&old) == -1);
	ATF_REQUIRE_EQ(caught, SIGUSR1);
	ATF_REQUIRE_EQ(sigprocmask(SIG_SETMASK, &old, NULL), 0);
	open_gate(gate);
	exited(pid, 1);
}

static void
signal_parent_and_exit(void)
{

	CHILD_REQUIRE(kill(getppid(), SIGUSR1) == 0);
	_exit(1);
}

ATF_TC_WITHOUT_HEAD(restarted);
ATF_TC_BODY(restarted, tc)
{
	pid_t pid;
	int status;

	set_handler(SA_RESTART);
	pid = child(signal_parent_and_exit);
	ATF_REQUIRE_EQ(waitpid(pid, &status, 0), pid);
	ATF_REQUIRE(WIFEXITED(status) && WEXITSTATUS(status) == 1);
	ATF_REQUIRE_EQ(caught, SIGUSR1);
}

static void
wait_chld(int sig)
{

	caught = sig;
}

ATF_TC_WITHOUT_HEAD(SIGCHLD_comes);
ATF_TC_BODY(SIGCHLD_comes, tc)
{
	sigset_t set, old;
	pid_t pid;

	ATF_REQUIRE(signal(SIGCHLD, wait_chld) != SIG_ERR);
	sigemptyset(&set);
	sigaddset(&set, SIGCHLD);
	ATF_REQUIRE_EQ(sigprocmask(SIG_BLOCK, &set, &old), 0);
	pid = child(exit_7);
	while (!caught)
		sigsuspend(&old);
	ATF_REQUIRE_EQ(caught, SIGCHLD);
	exited(pid, 7);
}

ATF_TC_WITHOUT_HEAD(waitid_and_wait6);
ATF_TC_BODY(waitid_and_wait6, tc)
{
	siginfo_t info;
	pid_t pid = child(exit_7);
	int status;

	ATF_REQUIRE_EQ(waitid(P_PID, pid, &info, WEXITED), 0);
	ATF_REQUIRE(info.si_pid == pid && info.si_code == CLD_EXITED && info.si_status == 7);
	pid = child(die_by_term);
	ATF_REQUIRE_EQ(wait6(P_ALL, 0, &status, WEXITED | WTRAPPED, NULL, &info), pid);
	ATF_REQUIRE(WIFSIGNALED(status) && info.si_code == CLD_KILLED && info.si_status == SIGTERM);
	no_child();
}

/* A child's child goes to another parent, and is no child of its grandparent. */
ATF_TC_WITHOUT_HEAD(orphans);
ATF_TC_BODY(orphans, tc)
{
	pid_t pid, grandchild;
	int ends[2];

	gate = new_gate();
	ATF_REQUIRE_EQ(pipe(ends), 0);
	ATF_REQUIRE((pid = fork()) != -1);
	if (pid == 0) {
		if ((grandchild = fork()) == 0)
			wait_at_gate();
		CHILD_REQUIRE(write(ends[1], &grandchild, sizeof(grandchild)) == sizeof(grandchild));
		_exit(1);
	}
	ATF_REQUIRE_EQ(read(ends[0], &grandchild, sizeof(grandchild)), (ssize_t)sizeof(grandchild));
	exited(pid, 1);
	ATF_REQUIRE_ERRNO(ECHILD, waitpid(grandchild, NULL, WNOHANG) == -1);
	open_gate(gate);
}

ATF_TP_ADD_TCS(tp)
{

	ATF_TP_ADD_TC(tp, nobody_to_wait_for);
	ATF_TP_ADD_TC(tp, exit_codes);
	ATF_TP_ADD_TC(tp, ends_by_signals);
	ATF_TP_ADD_TC(tp, WNOHANG_returns_at_once);
	ATF_TP_ADD_TC(tp, one_of_three);
	ATF_TP_ADD_TC(tp, job_control);
	ATF_TP_ADD_TC(tp, stop_not_asked_for);
	ATF_TP_ADD_TC(tp, trace_stop_reported_once);
	ATF_TP_ADD_TC(tp, stops_are_the_tracers);
	ATF_TP_ADD_TC(tp, interrupted);
	ATF_TP_ADD_TC(tp, restarted);
	ATF_TP_ADD_TC(tp, SIGCHLD_comes);
	ATF_TP_ADD_TC(tp, waitid_and_wait6);
	ATF_TP_ADD_TC(tp, orphans);
	return (atf_no_error());
}
