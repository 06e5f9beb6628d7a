/* Job control: stop signals, SIGCONT, and the SIGCHLD that a parent gets. */
#include "debugger.h"

static volatile sig_atomic_t caught, children, stopped;
static void note(int sig) { caught = sig; }
static void note_stop(int sig) { stopped = sig; }
static void count_child(int sig) { children += sig == SIGCHLD; }

static int gate[2];

static void
exit_when_released(void)
{
	CHILD_REQUIRE(await_release(gate[0]));
	_exit(caught);
}

static bool
wait_job_stop(pid_t pid, int sig)
{
	int status = 0;

	return (waitpid(pid, &status, WUNTRACED) == pid && status == STOPPED_BY(sig));
}

static bool
wait_continued(pid_t pid)
{
	int status = 0;

	return (waitpid(pid, &status, WCONTINUED) == pid && WIFCONTINUED(status));
}

/*
 * Each of the four stop signals stops by default, and SIGCONT lets go on.
 * Only SIGSTOP does so in an orphaned process group, as kyua(1) makes one for
 * each case: the test leads a session then.
 */
ATF_TC_WITHOUT_HEAD(stop_signals);
ATF_TC_BODY(stop_signals, tc)
{
	static const int signals[] = { SIGSTOP, SIGTSTP, SIGTTIN, SIGTTOU };
	unsigned count = getsid(0) == getpid() ? 1 : nitems(signals);
	pid_t pid;

	ATF_REQUIRE(pipe(gate) == 0);
	pid = start(exit_when_released);
	for (unsigned i = 0; i < count; i++) {
		ATF_REQUIRE(kill(pid, signals[i]) == 0);
		ATF_REQUIRE(wait_job_stop(pid, signals[i]));
		ATF_REQUIRE(kill(pid, SIGCONT) == 0);
		ATF_REQUIRE(wait_continued(pid));
	}
	release(gate[1]);
	ATF_REQUIRE(wait_exit(pid, 0));
}

static void
stop_then_report(void)
{
	CHILD_REQUIRE(raise(SIGSTOP) == 0);
	_exit(caught);
}

static void
catch_cont_and_stop(void)
{
	CHILD_REQUIRE(signal(SIGCONT, note) != SIG_ERR);
	stop_then_report();
}

/* SIGCONT continues whether it is caught, ignored or blocked. */
ATF_TC_WITHOUT_HEAD(cont_caught);
ATF_TC_BODY(cont_caught, tc)
{
	pid_t pid = start(catch_cont_and_stop);

	ATF_REQUIRE(wait_job_stop(pid, SIGSTOP));
	ATF_REQUIRE(kill(pid, SIGCONT) == 0);
	ATF_REQUIRE(wait_exit(pid, SIGCONT));
}

static void
ignore_cont_and_stop(void)
{
	CHILD_REQUIRE(signal(SIGCONT, SIG_IGN) != SIG_ERR);
	stop_then_report();
}

ATF_TC_WITHOUT_HEAD(cont_ignored);
ATF_TC_BODY(cont_ignored, tc)
{
	pid_t pid = start(ignore_cont_and_stop);

	ATF_REQUIRE(wait_job_stop(pid, SIGSTOP));
	ATF_REQUIRE(kill(pid, SIGCONT) == 0);
	ATF_REQUIRE(wait_exit(pid, 0));
}

static void
block_cont_and_stop(void)
{
	sigset_t set;

	sigemptyset(&set);
	sigaddset(&set, SIGCONT);
	CHILD_REQUIRE(sigprocmask(SIG_BLOCK, &set, NULL) == 0);
	stop_then_report();
}

ATF_TC_WITHOUT_HEAD(cont_blocked);
ATF_TC_BODY(cont_blocked, tc)
{
	pid_t pid = start(block_cont_and_stop);

	ATF_REQUIRE(wait_job_stop(pid, SIGSTOP));
	ATF_REQUIRE(kill(pid, SIGCONT) == 0);
	ATF_REQUIRE(wait_exit(pid, 0));
}

/* SIGTSTP can be caught, SIGSTOP can't. */
static void
catch_tstp(void)
{
	CHILD_REQUIRE(signal(SIGTSTP, note) != SIG_ERR);
	CHILD_REQUIRE(raise(SIGTSTP) == 0);
	_exit(caught);
}

ATF_TC_WITHOUT_HEAD(tstp_caught);
ATF_TC_BODY(tstp_caught, tc)
{
	ATF_REQUIRE(wait_exit(start(catch_tstp), SIGTSTP));
}

/* A stopped process keeps its signals until it goes on; SIGKILL ends it where it is. */
ATF_TC_WITHOUT_HEAD(signals_of_a_stopped_process);
ATF_TC_BODY(signals_of_a_stopped_process, tc)
{
	pid_t pid = start(stop_then_report);
	int status;

	ATF_REQUIRE(wait_job_stop(pid, SIGSTOP));
	ATF_REQUIRE(kill(pid, SIGTERM) == 0);
	ATF_REQUIRE(waitpid(pid, &status, WNOHANG | WUNTRACED) == 0);
	ATF_REQUIRE(kill(pid, SIGCONT) == 0);
	ATF_REQUIRE(wait_signaled(pid, SIGTERM));
	pid = start(stop_then_report);
	ATF_REQUIRE(wait_job_stop(pid, SIGSTOP));
	ATF_REQUIRE(kill(pid, SIGKILL) == 0);
	ATF_REQUIRE(wait_signaled(pid, SIGKILL));
}

/* SIGCONT takes a pending stop signal away. */
static void
pend_and_continue(void)
{
	sigset_t set;

	sigemptyset(&set);
	sigaddset(&set, SIGTSTP);
	CHILD_REQUIRE(sigprocmask(SIG_BLOCK, &set, NULL) == 0);
	CHILD_REQUIRE(kill(getpid(), SIGTSTP) == 0);
	CHILD_REQUIRE(kill(getpid(), SIGCONT) == 0);
	CHILD_REQUIRE(sigprocmask(SIG_UNBLOCK, &set, NULL) == 0);
	_exit(3);
}

ATF_TC_WITHOUT_HEAD(cont_discards_stops);
ATF_TC_BODY(cont_discards_stops, tc)
{
	int status = 0;
	pid_t pid = start(pend_and_continue);

	ATF_REQUIRE(waitpid(pid, &status, WUNTRACED) == pid);
	ATF_REQUIRE(status == EXITED_WITH(3));
}

/* And a stop signal a pending SIGCONT. */
static void
pend_cont_and_stop(void)
{
	sigset_t set;

	CHILD_REQUIRE(signal(SIGCONT, note) != SIG_ERR);
	CHILD_REQUIRE(signal(SIGTSTP, note_stop) != SIG_ERR);
	sigemptyset(&set);
	sigaddset(&set, SIGCONT);
	CHILD_REQUIRE(sigprocmask(SIG_BLOCK, &set, NULL) == 0);
	CHILD_REQUIRE(kill(getpid(), SIGCONT) == 0);
	CHILD_REQUIRE(kill(getpid(), SIGTSTP) == 0);
	CHILD_REQUIRE(sigprocmask(SIG_UNBLOCK, &set, NULL) == 0);
	CHILD_REQUIRE(stopped == SIGTSTP);
	_exit(caught);
}

ATF_TC_WITHOUT_HEAD(stop_discards_cont);
ATF_TC_BODY(stop_discards_cont, tc)
{
	ATF_REQUIRE(wait_exit(start(pend_cont_and_stop), 0));
}

static void
catch_children(int flags)
{
	struct sigaction sa;

	memset(&sa, 0, sizeof(sa));
	sa.sa_handler = count_child;
	sa.sa_flags = SA_RESTART | flags;
	sigemptyset(&sa.sa_mask);
	ATF_REQUIRE(sigaction(SIGCHLD, &sa, NULL) == 0);
}

/* SIGCHLD comes for a stop and for an exit, and before the call that sees it is over. */
ATF_TC_WITHOUT_HEAD(sigchld_of_stop_and_exit);
ATF_TC_BODY(sigchld_of_stop_and_exit, tc)
{
	pid_t pid;

	catch_children(0);
	ATF_REQUIRE(pipe(gate) == 0);
	pid = start(exit_when_released);
	ATF_REQUIRE(kill(pid, SIGSTOP) == 0);
	while (children < 1)
		usleep(1000);
	ATF_REQUIRE(wait_job_stop(pid, SIGSTOP));
	ATF_REQUIRE(kill(pid, SIGCONT) == 0);
	ATF_REQUIRE(wait_continued(pid));
	children = 0;
	release(gate[1]);
	while (children < 1)
		usleep(1000);
	ATF_REQUIRE(wait_exit(pid, 0));
}

/* And for a trace stop, to the debugger. */
ATF_TC_WITHOUT_HEAD(sigchld_of_trace_stop);
ATF_TC_BODY(sigchld_of_trace_stop, tc)
{
	pid_t pid;

	catch_children(0);
	pid = start(sleep_for_ever);
	ATF_REQUIRE(ptrace(PT_ATTACH, pid, NULL, 0) == 0);
	while (children < 1)
		usleep(1000);
	ATF_REQUIRE(wait_stop(pid, SIGSTOP));
	ATF_REQUIRE(request(PT_KILL, pid, 0));
	ATF_REQUIRE(wait_signaled(pid, SIGKILL));
}

/* Under SA_NOCLDSTOP only for exits. */
ATF_TC_WITHOUT_HEAD(sigchld_of_exit_alone);
ATF_TC_BODY(sigchld_of_exit_alone, tc)
{
	pid_t pid;

	catch_children(SA_NOCLDSTOP);
	pid = start(stop_then_report);
	ATF_REQUIRE(wait_job_stop(pid, SIGSTOP));
	usleep(1000);
	ATF_REQUIRE(children == 0);
	ATF_REQUIRE(kill(pid, SIGCONT) == 0);
	while (children < 1)
		usleep(1000);
	ATF_REQUIRE(wait_exit(pid, 0));
}

/* What siginfo_t says of a child: sigaction(2) and siginfo(3). Each is read before the next one can come. */
static siginfo_t told;
static volatile sig_atomic_t is_told;
static sigset_t unblocked;

static void
take_info(int sig, siginfo_t *si, void *context)
{
	(void)context;
	told = *si;
	is_told = sig == SIGCHLD;
}

static void
await_infos(void)
{
	struct sigaction sa;
	sigset_t set;

	memset(&sa, 0, sizeof(sa));
	sa.sa_sigaction = take_info;
	sa.sa_flags = SA_SIGINFO;
	sigemptyset(&sa.sa_mask);
	ATF_REQUIRE(sigaction(SIGCHLD, &sa, NULL) == 0);
	sigemptyset(&set);
	sigaddset(&set, SIGCHLD);
	ATF_REQUIRE(sigprocmask(SIG_BLOCK, &set, &unblocked) == 0);
}

static void
told_of(pid_t pid, int code, int status)
{
	is_told = 0;
	while (is_told == 0)
		sigsuspend(&unblocked);
	ATF_REQUIRE(told.si_signo == SIGCHLD && told.si_pid == pid && told.si_uid == getuid());
	ATF_REQUIRE_MSG(told.si_code == code && told.si_status == status, "si_code %d with status %d instead of %d with %d",
	    told.si_code, told.si_status, code, status);
}

static void exit_with_7(void) { _exit(7); }

ATF_TC_WITHOUT_HEAD(siginfo_of_an_exit);
ATF_TC_BODY(siginfo_of_an_exit, tc)
{
	pid_t pid;

	await_infos();
	pid = start(exit_with_7);
	told_of(pid, CLD_EXITED, 7);
	ATF_REQUIRE(wait_exit(pid, 7));
}

ATF_TC_WITHOUT_HEAD(siginfo_of_a_killed_child);
ATF_TC_BODY(siginfo_of_a_killed_child, tc)
{
	pid_t pid;

	await_infos();
	pid = start(sleep_for_ever);
	ATF_REQUIRE(kill(pid, SIGTERM) == 0);
	told_of(pid, CLD_KILLED, SIGTERM);
	ATF_REQUIRE(wait_signaled(pid, SIGTERM));
}

ATF_TC_WITHOUT_HEAD(siginfo_of_a_job_stop);
ATF_TC_BODY(siginfo_of_a_job_stop, tc)
{
	pid_t pid;

	await_infos();
	pid = start(sleep_for_ever);
	ATF_REQUIRE(kill(pid, SIGSTOP) == 0);
	told_of(pid, CLD_STOPPED, SIGSTOP);
	ATF_REQUIRE(wait_job_stop(pid, SIGSTOP));
	ATF_REQUIRE(kill(pid, SIGCONT) == 0);
	told_of(pid, CLD_CONTINUED, SIGCONT);
	ATF_REQUIRE(wait_continued(pid));
	ATF_REQUIRE(kill(pid, SIGKILL) == 0);
	told_of(pid, CLD_KILLED, SIGKILL);
	ATF_REQUIRE(wait_signaled(pid, SIGKILL));
}

static void
be_traced_and_exit(void)
{
	trace_me();
	CHILD_REQUIRE(raise(SIGUSR1) == 0);
	_exit(7);
}

/* Its tracer hears of a trace stop; a signal that isn't passed on ends nobody. */
ATF_TC_WITHOUT_HEAD(siginfo_of_a_trace_stop);
ATF_TC_BODY(siginfo_of_a_trace_stop, tc)
{
	pid_t pid;

	await_infos();
	pid = start(be_traced_and_exit);
	told_of(pid, CLD_TRAPPED, SIGSTOP);
	ATF_REQUIRE(wait_stop(pid, SIGSTOP));
	ATF_REQUIRE(go_on(pid));
	told_of(pid, CLD_TRAPPED, SIGUSR1);
	ATF_REQUIRE(wait_stop(pid, SIGUSR1));
	ATF_REQUIRE(go_on(pid));
	told_of(pid, CLD_EXITED, 7);
	ATF_REQUIRE(wait_exit(pid, 7));
}

/* The stop of a traced process is for its debugger: its parent doesn't see it. */
static pid_t target;
static int attached[2];

static void
debug_target(void)
{
	CHILD_REQUIRE(attach(target));
	release(attached[1]);
	CHILD_REQUIRE(await_release(gate[0]));
	CHILD_REQUIRE(request(PT_KILL, target, 0));
	CHILD_REQUIRE(wait_signaled(target, SIGKILL));
}

ATF_TC_WITHOUT_HEAD(trace_stop_is_not_a_job_stop);
ATF_TC_BODY(trace_stop_is_not_a_job_stop, tc)
{
	int status;
	pid_t debugger;

	ATF_REQUIRE(pipe(gate) == 0 && pipe(attached) == 0);
	target = start(sleep_for_ever);
	debugger = start(debug_target);
	ATF_REQUIRE(await_release(attached[0]));
	ATF_REQUIRE(waitpid(target, &status, WUNTRACED | WNOHANG) == 0);
	release(gate[1]);
	ATF_REQUIRE(wait_exit(debugger, 0));
	ATF_REQUIRE(wait_signaled(target, SIGKILL));
}

ATF_TP_ADD_TCS(tp)
{
	ATF_TP_ADD_TC(tp, stop_signals);
	ATF_TP_ADD_TC(tp, cont_caught);
	ATF_TP_ADD_TC(tp, cont_ignored);
	ATF_TP_ADD_TC(tp, cont_blocked);
	ATF_TP_ADD_TC(tp, tstp_caught);
	ATF_TP_ADD_TC(tp, signals_of_a_stopped_process);
	ATF_TP_ADD_TC(tp, cont_discards_stops);
	ATF_TP_ADD_TC(tp, stop_discards_cont);
	ATF_TP_ADD_TC(tp, sigchld_of_stop_and_exit);
	ATF_TP_ADD_TC(tp, sigchld_of_trace_stop);
	ATF_TP_ADD_TC(tp, sigchld_of_exit_alone);
	ATF_TP_ADD_TC(tp, siginfo_of_an_exit);
	ATF_TP_ADD_TC(tp, siginfo_of_a_killed_child);
	ATF_TP_ADD_TC(tp, siginfo_of_a_job_stop);
	ATF_TP_ADD_TC(tp, siginfo_of_a_trace_stop);
	ATF_TP_ADD_TC(tp, trace_stop_is_not_a_job_stop);
	return (atf_no_error());
}
