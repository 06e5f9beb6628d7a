/* Signals of a traced process: stops, what a debugger passes on, blocked and pending ones. */
#include "cases.h"

static struct gate gate;
static volatile sig_atomic_t caught;

static void
note(int sig)
{

	caught = sig;
}

static void
wait_at_gate(void)
{

	pass_gate(gate);
	_exit(1);
}

static void
raise_usr1(void)
{

	raise(SIGUSR1);
	_exit(1);
}

static void
raise_abrt(void)
{

	raise(SIGABRT);
	_exit(1);
}

ATF_TC_WITHOUT_HEAD(a_signal_stops);
ATF_TC_BODY(a_signal_stops, tc)
{
	pid_t pid = traced_child(raise_usr1);
	struct ptrace_lwpinfo pl;

	go_on(pid);
	stopped_by(pid, SIGUSR1);
	pl = information(pid);
	ATF_REQUIRE_EQ(pl.pl_event, PL_EVENT_SIGNAL);
	ATF_REQUIRE_EQ(pl.pl_flags & ~PL_FLAG_SI, 0);
	go_on(pid);
	exited(pid, 1);
}

ATF_TC_WITHOUT_HEAD(PT_CONTINUE_with_signal);
ATF_TC_BODY(PT_CONTINUE_with_signal, tc)
{
	pid_t pid = traced_child(raise_abrt);

	go_on(pid);
	stopped_by(pid, SIGABRT);
	resume(PT_CONTINUE, pid, SIGABRT);
	killed(pid, SIGABRT);
	no_child();
}

ATF_TC_WITHOUT_HEAD(PT_CONTINUE_change_sig);
ATF_TC_BODY(PT_CONTINUE_change_sig, tc)
{
	pid_t pid = traced_child(raise_usr1);

	go_on(pid);
	stopped_by(pid, SIGUSR1);
	resume(PT_CONTINUE, pid, SIGKILL);
	killed(pid, SIGKILL);
	no_child();
}

static void
raise_caught(void)
{

	CHILD_REQUIRE(signal(SIGUSR1, note) != SIG_ERR);
	raise(SIGUSR1);
	_exit(caught);
}

ATF_TC_WITHOUT_HEAD(PT_CONTINUE_with_a_caught_signal);
ATF_TC_BODY(PT_CONTINUE_with_a_caught_signal, tc)
{
	pid_t pid = traced_child(raise_caught);

	go_on(pid);
	stopped_by(pid, SIGUSR1);
	resume(PT_CONTINUE, pid, SIGUSR1);
	exited(pid, SIGUSR1);
}

ATF_TC_WITHOUT_HEAD(PT_CONTINUE_without_the_signal);
ATF_TC_BODY(PT_CONTINUE_without_the_signal, tc)
{
	pid_t pid = traced_child(raise_caught);

	go_on(pid);
	stopped_by(pid, SIGUSR1);
	go_on(pid);
	exited(pid, 0);
}

ATF_TC_WITHOUT_HEAD(PT_STEP_with_signal);
ATF_TC_BODY(PT_STEP_with_signal, tc)
{
	pid_t pid = traced_child(raise_abrt);

	go_on(pid);
	stopped_by(pid, SIGABRT);
	resume(PT_STEP, pid, SIGABRT);
	killed(pid, SIGABRT);
}

ATF_TC_WITHOUT_HEAD(PT_STEP_stops);
ATF_TC_BODY(PT_STEP_stops, tc)
{
	pid_t pid = traced_child(raise_usr1);

	resume(PT_STEP, pid, 0);
	stopped_by(pid, SIGTRAP);
	go_on(pid);
	stopped_by(pid, SIGUSR1);
	go_on(pid);
	exited(pid, 1);
}

static void
block_and_raise(void)
{
	sigset_t set;

	sigemptyset(&set);
	sigaddset(&set, SIGUSR1);
	sigaddset(&set, SIGHUP);
	CHILD_REQUIRE(sigprocmask(SIG_BLOCK, &set, NULL) == 0);
	raise(SIGUSR1);
	raise(SIGUSR2);
	sigemptyset(&set);
	CHILD_REQUIRE(sigprocmask(SIG_SETMASK, &set, NULL) == 0);
	_exit(1);
}

ATF_TC_WITHOUT_HEAD(blocked_and_pending);
ATF_TC_BODY(blocked_and_pending, tc)
{
	pid_t pid = traced_child(block_and_raise);
	struct ptrace_lwpinfo pl;

	go_on(pid);
	stopped_by(pid, SIGUSR2);
	pl = information(pid);
	ATF_REQUIRE(sigismember(&pl.pl_sigmask, SIGUSR1) == 1 && sigismember(&pl.pl_sigmask, SIGHUP) == 1);
	ATF_REQUIRE(sigismember(&pl.pl_sigmask, SIGUSR2) == 0);
	ATF_REQUIRE(sigismember(&pl.pl_siglist, SIGUSR1) == 1);
	ATF_REQUIRE(sigismember(&pl.pl_siglist, SIGHUP) == 0);
	go_on(pid);
	stopped_by(pid, SIGUSR1);
	go_on(pid);
	exited(pid, 1);
}

static void
ignore_and_raise(void)
{

	CHILD_REQUIRE(signal(SIGUSR1, SIG_IGN) != SIG_ERR);
	raise(SIGUSR1);
	_exit(1);
}

/* ptrace(2): a traced process stops when it receives a signal; one that it ignores may be discarded first. */
ATF_TC_WITHOUT_HEAD(an_ignored_signal);
ATF_TC_BODY(an_ignored_signal, tc)
{
	pid_t pid = traced_child(ignore_and_raise);
	int status;

	go_on(pid);
	ATF_REQUIRE_EQ(waitpid(pid, &status, 0), pid);
	if (WIFSTOPPED(status)) {
		ATF_REQUIRE_EQ(WSTOPSIG(status), SIGUSR1);
		resume(PT_CONTINUE, pid, SIGUSR1);
		ATF_REQUIRE_EQ(waitpid(pid, &status, 0), pid);
	}
	ATF_REQUIRE(WIFEXITED(status) && WEXITSTATUS(status) == 1);
}

/* SIGKILL ends a process without a stop, and also one that is stopped. */
ATF_TC_WITHOUT_HEAD(SIGKILL_ends_a_stopped_process);
ATF_TC_BODY(SIGKILL_ends_a_stopped_process, tc)
{
	pid_t pid = traced_child(raise_usr1);

	ATF_REQUIRE_EQ(kill(pid, SIGKILL), 0);
	killed(pid, SIGKILL);
	no_child();
}

ATF_TC_WITHOUT_HEAD(PT_KILL_ends_a_stopped_process);
ATF_TC_BODY(PT_KILL_ends_a_stopped_process, tc)
{
	pid_t pid = traced_child(raise_usr1);

	go_on(pid);
	stopped_by(pid, SIGUSR1);
	ATF_REQUIRE_EQ(ptrace(PT_KILL, pid, NULL, 0), 0);
	killed(pid, SIGKILL);
	no_child();
}

/* A stop signal stops a traced process for its debugger; a second stop needs a second signal. */
static void
raise_tstp(void)
{

	raise(SIGTSTP);
	_exit(1);
}

ATF_TC_WITHOUT_HEAD(a_stop_signal_of_a_traced_process);
ATF_TC_BODY(a_stop_signal_of_a_traced_process, tc)
{
	pid_t pid = traced_child(raise_tstp);

	go_on(pid);
	stopped_by(pid, SIGTSTP);
	go_on(pid);
	exited(pid, 1);
}

ATF_TC_WITHOUT_HEAD(several_signals);
ATF_TC_BODY(several_signals, tc)
{
	pid_t pid;
	int seen = 0, status;

	gate = new_gate();
	pid = child(wait_at_gate);
	attach(pid);
	ATF_REQUIRE_EQ(kill(pid, SIGUSR1), 0);
	ATF_REQUIRE_EQ(kill(pid, SIGUSR2), 0);
	go_on(pid);
	for (int i = 0; i < 2; i++) {
		ATF_REQUIRE_EQ(waitpid(pid, &status, 0), pid);
		ATF_REQUIRE(WIFSTOPPED(status));
		seen |= WSTOPSIG(status) == SIGUSR1 ? 1 : WSTOPSIG(status) == SIGUSR2 ? 2 : 4;
		go_on(pid);
	}
	ATF_REQUIRE_EQ(seen, 3);
	open_gate(gate);
	exited(pid, 1);
}

/* A detached process acts on signals again. */
ATF_TC_WITHOUT_HEAD(signals_after_detach);
ATF_TC_BODY(signals_after_detach, tc)
{
	pid_t pid;

	gate = new_gate();
	pid = child(wait_at_gate);
	attach(pid);
	resume(PT_DETACH, pid, 0);
	ATF_REQUIRE_EQ(kill(pid, SIGTERM), 0);
	killed(pid, SIGTERM);
	open_gate(gate);
}

ATF_TC_WITHOUT_HEAD(kill_refusals);
ATF_TC_BODY(kill_refusals, tc)
{
	pid_t pid;

	gate = new_gate();
	pid = child(wait_at_gate);
	ATF_REQUIRE_EQ(kill(pid, 0), 0);
	ATF_REQUIRE_ERRNO(EINVAL, kill(pid, 1000) == -1);
	open_gate(gate);
	exited(pid, 1);
	ATF_REQUIRE_ERRNO(ESRCH, kill(pid, 0) == -1);
	ATF_REQUIRE_ERRNO(ESRCH, kill(pid, SIGTERM) == -1);
}

ATF_TC_WITHOUT_HEAD(sigaction_refusals);
ATF_TC_BODY(sigaction_refusals, tc)
{
	struct sigaction act, old;

	memset(&act, 0, sizeof(act));
	act.sa_handler = note;
	act.sa_flags = SA_RESTART | SA_NODEFER;
	sigemptyset(&act.sa_mask);
	ATF_REQUIRE_ERRNO(EINVAL, sigaction(SIGKILL, &act, NULL) == -1);
	ATF_REQUIRE_ERRNO(EINVAL, sigaction(SIGSTOP, &act, NULL) == -1);
	ATF_REQUIRE_ERRNO(EINVAL, sigaction(0, &act, NULL) == -1);
	ATF_REQUIRE_EQ(sigaction(SIGUSR1, &act, NULL), 0);
	ATF_REQUIRE_EQ(sigaction(SIGUSR1, NULL, &old), 0);
	ATF_REQUIRE(old.sa_handler == note && old.sa_flags == (SA_RESTART | SA_NODEFER));
}

ATF_TP_ADD_TCS(tp)
{

	ATF_TP_ADD_TC(tp, a_signal_stops);
	ATF_TP_ADD_TC(tp, PT_CONTINUE_with_signal);
	ATF_TP_ADD_TC(tp, PT_CONTINUE_change_sig);
	ATF_TP_ADD_TC(tp, PT_CONTINUE_with_a_caught_signal);
	ATF_TP_ADD_TC(tp, PT_CONTINUE_without_the_signal);
	ATF_TP_ADD_TC(tp, PT_STEP_with_signal);
	ATF_TP_ADD_TC(tp, PT_STEP_stops);
	ATF_TP_ADD_TC(tp, blocked_and_pending);
	ATF_TP_ADD_TC(tp, an_ignored_signal);
	ATF_TP_ADD_TC(tp, SIGKILL_ends_a_stopped_process);
	ATF_TP_ADD_TC(tp, PT_KILL_ends_a_stopped_process);
	ATF_TP_ADD_TC(tp, a_stop_signal_of_a_traced_process);
	ATF_TP_ADD_TC(tp, several_signals);
	ATF_TP_ADD_TC(tp, signals_after_detach);
	ATF_TP_ADD_TC(tp, kill_refusals);
	ATF_TP_ADD_TC(tp, sigaction_refusals);
	return (atf_no_error());
}
