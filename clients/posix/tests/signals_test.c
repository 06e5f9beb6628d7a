/* sigaction(2), sigprocmask(2), sigsuspend(2), sigwait(2), kill(2), without a debugger. */
#include "debugger.h"
#include <sys/time.h>

static volatile sig_atomic_t caught, nested, order;
static void note(int sig) { caught = sig; }
static void add_digit(int sig) { order = order * 10 + (sig == SIGUSR1 ? 1 : 2); }

static sigset_t
set_of(int sig)
{
	sigset_t set;

	sigemptyset(&set);
	if (sig != 0)
		sigaddset(&set, sig);
	return (set);
}

static void
block(int sig)
{
	sigset_t set = set_of(sig);

	ATF_REQUIRE(sigprocmask(SIG_BLOCK, &set, NULL) == 0);
}

static void
unblock(int sig)
{
	sigset_t set = set_of(sig);

	ATF_REQUIRE(sigprocmask(SIG_UNBLOCK, &set, NULL) == 0);
}

static bool
is_blocked(int sig)
{
	sigset_t set;

	ATF_REQUIRE(sigprocmask(SIG_BLOCK, NULL, &set) == 0);
	return (sigismember(&set, sig) == 1);
}

static bool
is_pending(int sig)
{
	sigset_t set;

	ATF_REQUIRE(sigpending(&set) == 0);
	return (sigismember(&set, sig) == 1);
}

static void
catch(int sig, void (*handler)(int), int flags, int masked)
{
	struct sigaction sa;

	memset(&sa, 0, sizeof(sa));
	sa.sa_handler = handler;
	sa.sa_flags = flags;
	sa.sa_mask = set_of(masked);
	ATF_REQUIRE(sigaction(sig, &sa, NULL) == 0);
}

/* raise(3) comes back after the handler, and kill(2) of oneself too. */
ATF_TC_WITHOUT_HEAD(handler_runs_first);
ATF_TC_BODY(handler_runs_first, tc)
{
	catch(SIGUSR1, note, 0, 0);
	ATF_REQUIRE(raise(SIGUSR1) == 0);
	ATF_REQUIRE(caught == SIGUSR1);
	caught = 0;
	ATF_REQUIRE(kill(getpid(), SIGUSR1) == 0);
	ATF_REQUIRE(caught == SIGUSR1);
}

static void
look_at_mask(int sig)
{
	ATF_REQUIRE(is_blocked(sig) && is_blocked(SIGUSR2) && !is_blocked(SIGHUP));
	ATF_REQUIRE(raise(SIGUSR2) == 0);
	ATF_REQUIRE(nested == 0);
	caught = sig;
}

static void note_nested(int sig) { nested = sig; }

/* A handler runs with its signal and sa_mask blocked, and the mask is as before after it. */
ATF_TC_WITHOUT_HEAD(mask_of_a_handler);
ATF_TC_BODY(mask_of_a_handler, tc)
{
	catch(SIGUSR1, look_at_mask, 0, SIGUSR2);
	catch(SIGUSR2, note_nested, 0, 0);
	ATF_REQUIRE(raise(SIGUSR1) == 0);
	ATF_REQUIRE(caught == SIGUSR1 && nested == SIGUSR2);
	ATF_REQUIRE(!is_blocked(SIGUSR1) && !is_blocked(SIGUSR2));
}

static void
raise_once_more(int sig)
{
	if (caught++ == 0)
		ATF_REQUIRE(raise(sig) == 0 && caught == 2);
}

ATF_TC_WITHOUT_HEAD(nodefer);
ATF_TC_BODY(nodefer, tc)
{
	catch(SIGUSR1, raise_once_more, SA_NODEFER, 0);
	ATF_REQUIRE(raise(SIGUSR1) == 0);
	ATF_REQUIRE(caught == 2);
}

ATF_TC_WITHOUT_HEAD(resethand);
ATF_TC_BODY(resethand, tc)
{
	struct sigaction old;

	catch(SIGUSR1, note, SA_RESETHAND, 0);
	ATF_REQUIRE(raise(SIGUSR1) == 0);
	ATF_REQUIRE(caught == SIGUSR1);
	ATF_REQUIRE(sigaction(SIGUSR1, NULL, &old) == 0 && old.sa_handler == SIG_DFL);
}

static void
note_siginfo(int sig, siginfo_t *si, void *context)
{
	ATF_REQUIRE(si->si_signo == sig && context != NULL);
	caught = sig;
}

ATF_TC_WITHOUT_HEAD(siginfo);
ATF_TC_BODY(siginfo, tc)
{
	struct sigaction sa;

	memset(&sa, 0, sizeof(sa));
	sa.sa_sigaction = note_siginfo;
	sa.sa_flags = SA_SIGINFO;
	sigemptyset(&sa.sa_mask);
	ATF_REQUIRE(sigaction(SIGUSR1, &sa, NULL) == 0);
	ATF_REQUIRE(raise(SIGUSR1) == 0);
	ATF_REQUIRE(caught == SIGUSR1);
}

/* What was there before, and what can't be changed. */
ATF_TC_WITHOUT_HEAD(former_action);
ATF_TC_BODY(former_action, tc)
{
	struct sigaction sa, old;

	catch(SIGUSR1, note, SA_RESTART, SIGHUP);
	memset(&sa, 0, sizeof(sa));
	sa.sa_handler = SIG_IGN;
	sigemptyset(&sa.sa_mask);
	ATF_REQUIRE(sigaction(SIGUSR1, &sa, &old) == 0);
	ATF_REQUIRE(old.sa_handler == note && (old.sa_flags & SA_RESTART) && sigismember(&old.sa_mask, SIGHUP) == 1);
	ATF_REQUIRE(signal(SIGUSR1, SIG_DFL) == SIG_IGN);
	ATF_REQUIRE_ERRNO(EINVAL, sigaction(SIGKILL, &sa, NULL) == -1);
	ATF_REQUIRE_ERRNO(EINVAL, sigaction(SIGSTOP, &sa, NULL) == -1);
	ATF_REQUIRE_ERRNO(EINVAL, sigaction(0, &sa, NULL) == -1);
	ATF_REQUIRE_ERRNO(EINVAL, sigaction(1000, &sa, NULL) == -1);
	ATF_REQUIRE_ERRNO(EINVAL, signal(SIGKILL, note) == SIG_ERR);
}

/* SIG_BLOCK, SIG_UNBLOCK and SIG_SETMASK; SIGKILL and SIGSTOP stay unblocked. */
ATF_TC_WITHOUT_HEAD(masks);
ATF_TC_BODY(masks, tc)
{
	sigset_t set = set_of(SIGUSR2), old, all;

	block(SIGUSR1);
	ATF_REQUIRE(sigprocmask(SIG_BLOCK, &set, &old) == 0);
	ATF_REQUIRE(sigismember(&old, SIGUSR1) == 1 && sigismember(&old, SIGUSR2) == 0);
	ATF_REQUIRE(is_blocked(SIGUSR1) && is_blocked(SIGUSR2));
	unblock(SIGUSR1);
	ATF_REQUIRE(!is_blocked(SIGUSR1) && is_blocked(SIGUSR2));
	sigfillset(&all);
	ATF_REQUIRE(sigprocmask(SIG_SETMASK, &all, NULL) == 0);
	ATF_REQUIRE(is_blocked(SIGTERM) && !is_blocked(SIGKILL) && !is_blocked(SIGSTOP));
	ATF_REQUIRE(sigprocmask(SIG_SETMASK, &old, NULL) == 0);
	ATF_REQUIRE(is_blocked(SIGUSR1) && !is_blocked(SIGTERM));
	ATF_REQUIRE_ERRNO(EINVAL, sigprocmask(1000, &set, NULL) == -1);
}

/* A blocked signal pends, once, until it is unblocked. */
ATF_TC_WITHOUT_HEAD(pending);
ATF_TC_BODY(pending, tc)
{
	catch(SIGUSR1, add_digit, 0, 0);
	block(SIGUSR1);
	ATF_REQUIRE(kill(getpid(), SIGUSR1) == 0);
	ATF_REQUIRE(kill(getpid(), SIGUSR1) == 0);
	ATF_REQUIRE(order == 0 && is_pending(SIGUSR1) && !is_pending(SIGUSR2));
	unblock(SIGUSR1);
	ATF_REQUIRE(order == 1 && !is_pending(SIGUSR1));
}

/* Ignoring a signal discards what pends of it. */
ATF_TC_WITHOUT_HEAD(ignoring_discards);
ATF_TC_BODY(ignoring_discards, tc)
{
	catch(SIGUSR1, note, 0, 0);
	block(SIGUSR1);
	ATF_REQUIRE(kill(getpid(), SIGUSR1) == 0);
	ATF_REQUIRE(is_pending(SIGUSR1));
	ATF_REQUIRE(signal(SIGUSR1, SIG_IGN) == note);
	ATF_REQUIRE(!is_pending(SIGUSR1));
	ATF_REQUIRE(signal(SIGUSR1, note) == SIG_IGN);
	unblock(SIGUSR1);
	ATF_REQUIRE(caught == 0);
}

static void
look_at_child(void)
{
	CHILD_REQUIRE(is_blocked(SIGUSR1) && !is_pending(SIGUSR1));
	CHILD_REQUIRE(signal(SIGUSR2, SIG_DFL) == note);
}

/* A child inherits mask and handlers, and nothing pending. */
ATF_TC_WITHOUT_HEAD(fork_inherits);
ATF_TC_BODY(fork_inherits, tc)
{
	catch(SIGUSR2, note, 0, 0);
	block(SIGUSR1);
	ATF_REQUIRE(raise(SIGUSR1) == 0);
	ATF_REQUIRE(is_pending(SIGUSR1));
	ATF_REQUIRE(wait_exit(start(look_at_child), 0));
}

/* pause(3) and sigsuspend(2) come back with EINTR after a handler, and not for what is ignored. */
static void
wake_parent(void)
{
	CHILD_REQUIRE(kill(getppid(), SIGURG) == 0);
	CHILD_REQUIRE(kill(getppid(), SIGUSR1) == 0);
}

ATF_TC_WITHOUT_HEAD(sigsuspend_wakes);
ATF_TC_BODY(sigsuspend_wakes, tc)
{
	sigset_t none = set_of(0);

	catch(SIGUSR1, note, 0, 0);
	block(SIGUSR1);
	(void)start(wake_parent);
	ATF_REQUIRE_ERRNO(EINTR, sigsuspend(&none) == -1);
	ATF_REQUIRE(caught == SIGUSR1 && is_blocked(SIGUSR1));
	ATF_REQUIRE(wait(NULL) > 0);
}

/* A single ring might come before pause(3). */
ATF_TC_WITHOUT_HEAD(pause_wakes);
ATF_TC_BODY(pause_wakes, tc)
{
	const struct itimerval timer = { .it_value = { .tv_usec = 10000 }, .it_interval = { .tv_usec = 10000 } };

	catch(SIGALRM, note, SA_RESTART, 0);
	ATF_REQUIRE(setitimer(ITIMER_REAL, &timer, NULL) == 0);
	ATF_REQUIRE_ERRNO(EINTR, pause() == -1);
	ATF_REQUIRE(caught == SIGALRM);
}

ATF_TC_WITHOUT_HEAD(alarm_rings);
ATF_TC_BODY(alarm_rings, tc)
{
	sigset_t none = set_of(0);

	catch(SIGALRM, note, 0, 0);
	block(SIGALRM);
	ATF_REQUIRE(alarm(1) == 0);
	ATF_REQUIRE_ERRNO(EINTR, sigsuspend(&none) == -1);
	ATF_REQUIRE(caught == SIGALRM);
	ATF_REQUIRE(alarm(0) == 0);
}

/* sigwait(2) takes a blocked signal away, that has come before or comes later. */
ATF_TC_WITHOUT_HEAD(sigwait_takes);
ATF_TC_BODY(sigwait_takes, tc)
{
	sigset_t set = set_of(SIGUSR1);
	int sig = 0;

	block(SIGUSR1);
	ATF_REQUIRE(kill(getpid(), SIGUSR1) == 0);
	ATF_REQUIRE(sigwait(&set, &sig) == 0 && sig == SIGUSR1);
	ATF_REQUIRE(!is_pending(SIGUSR1));
	(void)start(wake_parent);
	sig = 0;
	ATF_REQUIRE(sigwait(&set, &sig) == 0 && sig == SIGUSR1);
	ATF_REQUIRE(wait(NULL) > 0);
}

/* An alarm that is taken back doesn't ring: either time is left of it, or it has rung before. */
ATF_TC_WITHOUT_HEAD(alarm_taken_back);
ATF_TC_BODY(alarm_taken_back, tc)
{
	unsigned left;

	block(SIGALRM);
	ATF_REQUIRE(alarm(1000) == 0);
	left = alarm(0);
	ATF_REQUIRE(left <= 1000);
	ATF_REQUIRE((left > 0) != is_pending(SIGALRM));
	ATF_REQUIRE(alarm(0) == 0);
}

/* kill(2) without a signal, with a bad one, of an unused number, and of one's process group. */
ATF_TC_WITHOUT_HEAD(kill_refused);
ATF_TC_BODY(kill_refused, tc)
{
	pid_t pid = start(sleep_for_ever);

	ATF_REQUIRE(kill(pid, 0) == 0);
	ATF_REQUIRE_ERRNO(EINVAL, kill(pid, 1000) == -1);
	ATF_REQUIRE_ERRNO(EINVAL, kill(pid, -1) == -1);
	ATF_REQUIRE(kill(pid, SIGKILL) == 0);
	ATF_REQUIRE(wait_signaled(pid, SIGKILL));
	ATF_REQUIRE_ERRNO(ESRCH, kill(pid, 0) == -1);
}

ATF_TC_WITHOUT_HEAD(kill_process_group);
ATF_TC_BODY(kill_process_group, tc)
{
	ATF_REQUIRE(kill(0, 0) == 0);
}

/* What ends a process by default, and what doesn't. */
ATF_TC_WITHOUT_HEAD(default_actions);
ATF_TC_BODY(default_actions, tc)
{
	static const int ending[] = { SIGHUP, SIGINT, SIGPIPE, SIGALRM, SIGTERM, SIGXCPU, SIGUSR1, SIGUSR2 };
	static const int discarded[] = { SIGURG, SIGCONT, SIGCHLD, SIGIO, SIGWINCH, SIGINFO };
	pid_t pid;

	for (unsigned i = 0; i < nitems(ending); i++) {
		pid = start(sleep_for_ever);
		for (unsigned k = 0; i == 0 && k < nitems(discarded); k++)
			ATF_REQUIRE(kill(pid, discarded[k]) == 0);
		ATF_REQUIRE(kill(pid, ending[i]) == 0);
		ATF_REQUIRE(wait_signaled(pid, ending[i]));
	}
}

static void
abort_under_a_handler(void)
{
	CHILD_REQUIRE(signal(SIGABRT, note) != SIG_ERR);
	abort();
}

/* abort(3) ends the process though SIGABRT is caught. */
ATF_TC_WITHOUT_HEAD(abort_ends);
ATF_TC_BODY(abort_ends, tc)
{
	ATF_REQUIRE(wait_signaled(start(abort_under_a_handler), SIGABRT));
}

static void
handle_fault(int sig)
{
	_exit(sig == SIGSEGV ? 3 : 4);
}

static volatile int *volatile nowhere;

static void
fault_under_a_handler(void)
{
	CHILD_REQUIRE(signal(SIGSEGV, handle_fault) != SIG_ERR);
	*nowhere = 1;
}

ATF_TC_WITHOUT_HEAD(fault_is_caught);
ATF_TC_BODY(fault_is_caught, tc)
{
	ATF_REQUIRE(wait_exit(start(fault_under_a_handler), 3));
}

ATF_TP_ADD_TCS(tp)
{
	ATF_TP_ADD_TC(tp, handler_runs_first);
	ATF_TP_ADD_TC(tp, mask_of_a_handler);
	ATF_TP_ADD_TC(tp, nodefer);
	ATF_TP_ADD_TC(tp, resethand);
	ATF_TP_ADD_TC(tp, siginfo);
	ATF_TP_ADD_TC(tp, former_action);
	ATF_TP_ADD_TC(tp, masks);
	ATF_TP_ADD_TC(tp, pending);
	ATF_TP_ADD_TC(tp, ignoring_discards);
	ATF_TP_ADD_TC(tp, fork_inherits);
	ATF_TP_ADD_TC(tp, sigsuspend_wakes);
	ATF_TP_ADD_TC(tp, pause_wakes);
	ATF_TP_ADD_TC(tp, alarm_rings);
	ATF_TP_ADD_TC(tp, sigwait_takes);
	ATF_TP_ADD_TC(tp, alarm_taken_back);
	ATF_TP_ADD_TC(tp, kill_refused);
	ATF_TP_ADD_TC(tp, kill_process_group);
	ATF_TP_ADD_TC(tp, default_actions);
	ATF_TP_ADD_TC(tp, abort_ends);
	ATF_TP_ADD_TC(tp, fault_is_caught);
	return (atf_no_error());
}
