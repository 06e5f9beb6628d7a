/* Signals of traced processes: what stops, what PT_CONTINUE delivers, discards or changes, and what SIGKILL does. */
#include "debugger.h"

static volatile sig_atomic_t caught;
static void count(int sig) { caught += sig == SIGUSR1 ? 1 : 10; }

static void
raise_and_exit_with_count(void)
{
	CHILD_REQUIRE(signal(SIGUSR1, count) != SIG_ERR);
	CHILD_REQUIRE(signal(SIGUSR2, count) != SIG_ERR);
	CHILD_REQUIRE(raise(SIGUSR1) == 0);
	_exit(caught);
}

static void exit_with_1(void) { _exit(1); }

/* The signal of the first stop is discarded, or another takes its place. */
ATF_TC_WITHOUT_HEAD(PT_CONTINUE_change_sig);
ATF_TC_BODY(PT_CONTINUE_change_sig, tc)
{
	pid_t pid = start_traced(exit_with_1);

	ATF_REQUIRE(request(PT_CONTINUE, pid, SIGTERM));
	ATF_REQUIRE(wait_signaled(pid, SIGTERM));
}

ATF_TC_WITHOUT_HEAD(signal_delivered);
ATF_TC_BODY(signal_delivered, tc)
{
	pid_t pid = start_traced(raise_and_exit_with_count);

	ATF_REQUIRE(go_on(pid));
	ATF_REQUIRE(wait_stop(pid, SIGUSR1));
	ATF_REQUIRE(request(PT_CONTINUE, pid, SIGUSR1));
	ATF_REQUIRE(wait_exit(pid, 1));
}

ATF_TC_WITHOUT_HEAD(signal_discarded);
ATF_TC_BODY(signal_discarded, tc)
{
	pid_t pid = start_traced(raise_and_exit_with_count);

	ATF_REQUIRE(go_on(pid));
	ATF_REQUIRE(wait_stop(pid, SIGUSR1));
	ATF_REQUIRE(go_on(pid));
	ATF_REQUIRE(wait_exit(pid, 0));
}

ATF_TC_WITHOUT_HEAD(signal_changed);
ATF_TC_BODY(signal_changed, tc)
{
	pid_t pid = start_traced(raise_and_exit_with_count);

	ATF_REQUIRE(go_on(pid));
	ATF_REQUIRE(wait_stop(pid, SIGUSR1));
	ATF_REQUIRE(request(PT_CONTINUE, pid, SIGUSR2));
	ATF_REQUIRE(wait_exit(pid, 10));
}

/* Each signal is a stop of its own, though none is delivered. */
static void
raise_three(void)
{
	CHILD_REQUIRE(raise(SIGUSR1) == 0);
	CHILD_REQUIRE(raise(SIGTERM) == 0);
	CHILD_REQUIRE(raise(SIGCONT) == 0);
	_exit(1);
}

ATF_TC_WITHOUT_HEAD(signals_stop_in_order);
ATF_TC_BODY(signals_stop_in_order, tc)
{
	static const int signals[] = { SIGUSR1, SIGTERM, SIGCONT };
	pid_t pid = start_traced(raise_three);

	for (unsigned i = 0; i < nitems(signals); i++) {
		ATF_REQUIRE(go_on(pid));
		ATF_REQUIRE(wait_stop(pid, signals[i]));
		ATF_REQUIRE(info(pid).pl_event == PL_EVENT_SIGNAL);
	}
	ATF_REQUIRE(go_on(pid));
	ATF_REQUIRE(wait_exit(pid, 1));
}

/* A signal that is sent to a stopped process waits until that goes on, and stops it again. */
ATF_TC_WITHOUT_HEAD(signal_while_stopped);
ATF_TC_BODY(signal_while_stopped, tc)
{
	pid_t pid = start_traced(exit_with_1);
	int status;

	ATF_REQUIRE(kill(pid, SIGUSR1) == 0);
	ATF_REQUIRE(waitpid(pid, &status, WNOHANG) == 0);
	ATF_REQUIRE(go_on(pid));
	ATF_REQUIRE(wait_stop(pid, SIGUSR1));
	ATF_REQUIRE(request(PT_CONTINUE, pid, SIGUSR1));
	ATF_REQUIRE(wait_signaled(pid, SIGUSR1));
}

/* SIGKILL ends a traced process without another stop: at once, or when a stopped one goes on. */
ATF_TC_WITHOUT_HEAD(kill_stopped);
ATF_TC_BODY(kill_stopped, tc)
{
	pid_t pid = start_traced(exit_with_1);

	ATF_REQUIRE(kill(pid, SIGKILL) == 0);
	(void)ptrace(PT_CONTINUE, pid, (caddr_t)1, 0);
	ATF_REQUIRE(wait_signaled(pid, SIGKILL));
	ATF_REQUIRE(no_child_left());
}

/* PT_KILL comes before a signal that is pending: no other stop is reported. */
static void
kill_with_pending(int sig)
{
	pid_t pid = start_traced(exit_with_1);

	ATF_REQUIRE(kill(pid, sig) == 0);
	ATF_REQUIRE(request(PT_KILL, pid, 0));
	ATF_REQUIRE(wait_signaled(pid, SIGKILL));
	ATF_REQUIRE(no_child_left());
}

ATF_TC_WITHOUT_HEAD(PT_KILL_competing_signal);
ATF_TC_BODY(PT_KILL_competing_signal, tc)
{
	kill_with_pending(SIGUSR1);
}

ATF_TC_WITHOUT_HEAD(PT_KILL_competing_stop);
ATF_TC_BODY(PT_KILL_competing_stop, tc)
{
	kill_with_pending(SIGSTOP);
}

static void
block_all_and_sleep(void)
{
	sigset_t all;

	sigfillset(&all);
	CHILD_REQUIRE(sigprocmask(SIG_BLOCK, &all, NULL) == 0);
	CHILD_REQUIRE(raise(SIGSTOP) == 0);
	sleep_for_ever();
}

ATF_TC_WITHOUT_HEAD(killed_with_sigmask);
ATF_TC_BODY(killed_with_sigmask, tc)
{
	pid_t pid = start_traced(block_all_and_sleep);
	struct ptrace_lwpinfo pl;

	ATF_REQUIRE(go_on(pid));
	ATF_REQUIRE(wait_stop(pid, SIGSTOP));
	pl = info(pid);
	ATF_REQUIRE(sigismember(&pl.pl_sigmask, SIGTERM) == 1);
	ATF_REQUIRE(sigismember(&pl.pl_sigmask, SIGKILL) == 0);
	ATF_REQUIRE(sigismember(&pl.pl_sigmask, SIGSTOP) == 0);
	ATF_REQUIRE(go_on(pid));
	ATF_REQUIRE(kill(pid, SIGKILL) == 0);
	ATF_REQUIRE(wait_signaled(pid, SIGKILL));
}

/* A blocked signal stops once it is unblocked. Until then a thread's own is in pl_siglist. */
static void
block_raise_unblock(void)
{
	sigset_t set;

	sigemptyset(&set);
	sigaddset(&set, SIGUSR1);
	CHILD_REQUIRE(sigprocmask(SIG_BLOCK, &set, NULL) == 0);
	CHILD_REQUIRE(raise(SIGUSR1) == 0);
	CHILD_REQUIRE(raise(SIGUSR2) == 0);
	CHILD_REQUIRE(sigprocmask(SIG_UNBLOCK, &set, NULL) == 0);
	_exit(1);
}

ATF_TC_WITHOUT_HEAD(blocked_signal_stops_later);
ATF_TC_BODY(blocked_signal_stops_later, tc)
{
	pid_t pid = start_traced(block_raise_unblock);
	struct ptrace_lwpinfo pl;

	ATF_REQUIRE(go_on(pid));
	ATF_REQUIRE(wait_stop(pid, SIGUSR2));
	pl = info(pid);
	ATF_REQUIRE(sigismember(&pl.pl_sigmask, SIGUSR1) == 1);
	ATF_REQUIRE(sigismember(&pl.pl_siglist, SIGUSR1) == 1);
	ATF_REQUIRE(go_on(pid));
	ATF_REQUIRE(wait_stop(pid, SIGUSR1));
	pl = info(pid);
	ATF_REQUIRE(sigismember(&pl.pl_siglist, SIGUSR1) == 0);
	ATF_REQUIRE(go_on(pid));
	ATF_REQUIRE(wait_exit(pid, 1));
}

/* A traced process doesn't do what a stop signal says. */
ATF_TC_WITHOUT_HEAD(stop_signal_passed_on);
ATF_TC_BODY(stop_signal_passed_on, tc)
{
	pid_t pid = start_traced(raise_and_exit_with_count);

	ATF_REQUIRE(request(PT_CONTINUE, pid, SIGSTOP));
	ATF_REQUIRE(wait_stop(pid, SIGUSR1));
	ATF_REQUIRE(request(PT_CONTINUE, pid, SIGTSTP));
	ATF_REQUIRE(wait_exit(pid, 0));
}

/* A signal that is ignored, or discarded by default, isn't received: nothing stops. */
static void
raise_ignored(void)
{
	CHILD_REQUIRE(signal(SIGUSR1, SIG_IGN) != SIG_ERR);
	CHILD_REQUIRE(raise(SIGUSR1) == 0);
	_exit(1);
}

ATF_TC_WITHOUT_HEAD(ignored_signal_does_not_stop);
ATF_TC_BODY(ignored_signal_does_not_stop, tc)
{
	pid_t pid = start_traced(raise_ignored);

	ATF_REQUIRE(go_on(pid));
	ATF_REQUIRE(wait_exit(pid, 1));
}

static void
raise_discarded(void)
{
	CHILD_REQUIRE(raise(SIGURG) == 0);
	CHILD_REQUIRE(raise(SIGWINCH) == 0);
	_exit(1);
}

ATF_TC_WITHOUT_HEAD(discarded_signal_does_not_stop);
ATF_TC_BODY(discarded_signal_does_not_stop, tc)
{
	pid_t pid = start_traced(raise_discarded);

	ATF_REQUIRE(go_on(pid));
	ATF_REQUIRE(wait_exit(pid, 1));
}

static void
fork_and_wait(void)
{
	pid_t pid = fork();

	CHILD_REQUIRE(pid != -1);
	if (pid == 0)
		_exit(2);
	CHILD_REQUIRE(waitpid(pid, NULL, 0) == pid);
	_exit(1);
}

ATF_TC_WITHOUT_HEAD(sigchld_does_not_stop);
ATF_TC_BODY(sigchld_does_not_stop, tc)
{
	pid_t pid = start_traced(fork_and_wait);

	ATF_REQUIRE(go_on(pid));
	ATF_REQUIRE(wait_exit(pid, 1));
}

/* What is delivered while it is blocked pends until it is unblocked. */
static void
catch_blocked(void)
{
	sigset_t set;

	CHILD_REQUIRE(signal(SIGUSR1, count) != SIG_ERR);
	sigemptyset(&set);
	sigaddset(&set, SIGUSR1);
	CHILD_REQUIRE(sigprocmask(SIG_BLOCK, &set, NULL) == 0);
	CHILD_REQUIRE(raise(SIGUSR2) == 0);
	CHILD_REQUIRE(caught == 0);
	CHILD_REQUIRE(sigprocmask(SIG_UNBLOCK, &set, NULL) == 0);
	CHILD_REQUIRE(caught == 1);
	_exit(1);
}

static void
deliver_blocked(void (*body)(void), int sig)
{
	pid_t pid = start_traced(body);
	int status;

	ATF_REQUIRE(go_on(pid));
	ATF_REQUIRE(wait_stop(pid, SIGUSR2));
	ATF_REQUIRE(request(PT_CONTINUE, pid, sig));
	/* Once it is unblocked a kernel may report it once more. */
	ATF_REQUIRE(waitpid(pid, &status, 0) == pid);
	if (status == STOPPED_BY(sig)) {
		ATF_REQUIRE(request(PT_CONTINUE, pid, sig));
		ATF_REQUIRE(waitpid(pid, &status, 0) == pid);
	}
	ATF_REQUIRE(status == EXITED_WITH(1));
}

ATF_TC_WITHOUT_HEAD(PT_CONTINUE_with_blocked_signal);
ATF_TC_BODY(PT_CONTINUE_with_blocked_signal, tc)
{
	deliver_blocked(catch_blocked, SIGUSR1);
}

static void
block_term_and_exit(void)
{
	sigset_t set;

	sigemptyset(&set);
	sigaddset(&set, SIGTERM);
	CHILD_REQUIRE(sigprocmask(SIG_BLOCK, &set, NULL) == 0);
	CHILD_REQUIRE(raise(SIGUSR2) == 0);
	_exit(1);
}

ATF_TC_WITHOUT_HEAD(PT_CONTINUE_with_blocked_ending_signal);
ATF_TC_BODY(PT_CONTINUE_with_blocked_ending_signal, tc)
{
	deliver_blocked(block_term_and_exit, SIGTERM);
}

/* An ignored signal that PT_CONTINUE delivers has no effect. */
static void
ignore_usr1_and_stop(void)
{
	CHILD_REQUIRE(signal(SIGUSR1, SIG_IGN) != SIG_ERR);
	CHILD_REQUIRE(raise(SIGUSR2) == 0);
	_exit(1);
}

ATF_TC_WITHOUT_HEAD(PT_CONTINUE_with_ignored_signal);
ATF_TC_BODY(PT_CONTINUE_with_ignored_signal, tc)
{
	pid_t pid = start_traced(ignore_usr1_and_stop);

	ATF_REQUIRE(go_on(pid));
	ATF_REQUIRE(wait_stop(pid, SIGUSR2));
	ATF_REQUIRE(request(PT_CONTINUE, pid, SIGUSR1));
	ATF_REQUIRE(wait_exit(pid, 1));
}

/* A fault stops with its signal, and ends the process once that is delivered. */
static volatile int *volatile nowhere;
static void write_nowhere(void) { *nowhere = 1; }

ATF_TC_WITHOUT_HEAD(fault);
ATF_TC_BODY(fault, tc)
{
	pid_t pid = start_traced(write_nowhere);

	ATF_REQUIRE(go_on(pid));
	ATF_REQUIRE(wait_stop(pid, SIGSEGV));
	ATF_REQUIRE(request(PT_CONTINUE, pid, SIGSEGV));
	ATF_REQUIRE(wait_signaled(pid, SIGSEGV));
}

ATF_TC_WITHOUT_HEAD(abort_is_reported);
ATF_TC_BODY(abort_is_reported, tc)
{
	pid_t pid = start_traced(abort);

	ATF_REQUIRE(go_on(pid));
	ATF_REQUIRE(wait_stop(pid, SIGABRT));
	ATF_REQUIRE(request(PT_CONTINUE, pid, SIGABRT));
	ATF_REQUIRE(wait_signaled(pid, SIGABRT));
}

ATF_TP_ADD_TCS(tp)
{
	ATF_TP_ADD_TC(tp, PT_CONTINUE_change_sig);
	ATF_TP_ADD_TC(tp, signal_delivered);
	ATF_TP_ADD_TC(tp, signal_discarded);
	ATF_TP_ADD_TC(tp, signal_changed);
	ATF_TP_ADD_TC(tp, signals_stop_in_order);
	ATF_TP_ADD_TC(tp, signal_while_stopped);
	ATF_TP_ADD_TC(tp, kill_stopped);
	ATF_TP_ADD_TC(tp, PT_KILL_competing_signal);
	ATF_TP_ADD_TC(tp, PT_KILL_competing_stop);
	ATF_TP_ADD_TC(tp, killed_with_sigmask);
	ATF_TP_ADD_TC(tp, blocked_signal_stops_later);
	ATF_TP_ADD_TC(tp, stop_signal_passed_on);
	ATF_TP_ADD_TC(tp, ignored_signal_does_not_stop);
	ATF_TP_ADD_TC(tp, discarded_signal_does_not_stop);
	ATF_TP_ADD_TC(tp, sigchld_does_not_stop);
	ATF_TP_ADD_TC(tp, PT_CONTINUE_with_blocked_signal);
	ATF_TP_ADD_TC(tp, PT_CONTINUE_with_blocked_ending_signal);
	ATF_TP_ADD_TC(tp, PT_CONTINUE_with_ignored_signal);
	ATF_TP_ADD_TC(tp, fault);
	ATF_TP_ADD_TC(tp, abort_is_reported);
	return (atf_no_error());
}
