/* kqueue(2): the filters for processes, descriptors, signals, timers, and the caller's own events. */
#include "debugger.h"
#include <sys/event.h>
#include <fcntl.h>
#include <poll.h>
#include <time.h>

static const struct timespec at_once = {0, 0};

static int
change(int kq, uintptr_t ident, short filter, unsigned short flags, unsigned fflags, int64_t data)
{
	struct kevent event;

	EV_SET(&event, ident, filter, flags, fflags, data, NULL);
	return (kevent(kq, &event, 1, NULL, 0, NULL));
}

static int
new_kqueue(void)
{
	int kq = kqueue();

	ATF_REQUIRE(kq >= 0);
	return (kq);
}

static struct kevent
next_event(int kq)
{
	struct kevent event;

	ATF_REQUIRE(kevent(kq, NULL, 0, &event, 1, NULL) == 1);
	return (event);
}

static bool
is_quiet(int kq)
{
	struct kevent event;

	return (kevent(kq, NULL, 0, &event, 1, &at_once) == 0);
}

static void exit_3(void) { _exit(3); }

ATF_TC_WITHOUT_HEAD(exit_of_a_child);
ATF_TC_BODY(exit_of_a_child, tc)
{
	int kq = new_kqueue(), status;
	pid_t pid = start(exit_3);
	struct kevent event;

	ATF_REQUIRE(change(kq, pid, EVFILT_PROC, EV_ADD, NOTE_EXIT, 0) == 0);
	event = next_event(kq);
	ATF_REQUIRE(event.ident == (uintptr_t)pid && event.filter == EVFILT_PROC);
	ATF_REQUIRE(event.fflags == NOTE_EXIT && event.flags & EV_EOF);
	ATF_REQUIRE(event.data == EXITED_WITH(3));
	ATF_REQUIRE(is_quiet(kq));
	ATF_REQUIRE(waitpid(pid, &status, WNOHANG) == pid);
	ATF_REQUIRE_ERRNO(ESRCH, change(kq, pid, EVFILT_PROC, EV_ADD, NOTE_EXIT, 0) == -1);
}

static int gate[2];

static void
fork_then_exec(void)
{
	pid_t pid;

	CHILD_REQUIRE(await_release(gate[0]));
	CHILD_REQUIRE((pid = fork()) != -1);
	if (pid == 0)
		_exit(0);
	CHILD_REQUIRE(waitpid(pid, NULL, 0) == pid);
	execl("/bin/true", "true", NULL);
	_exit(CHILD_FAILED);
}

ATF_TC_WITHOUT_HEAD(fork_and_exec_of_a_child);
ATF_TC_BODY(fork_and_exec_of_a_child, tc)
{
	unsigned wanted = NOTE_FORK | NOTE_EXEC | NOTE_EXIT, seen = 0;
	int kq = new_kqueue();
	pid_t pid;

	ATF_REQUIRE(pipe(gate) == 0);
	pid = start(fork_then_exec);
	ATF_REQUIRE(change(kq, pid, EVFILT_PROC, EV_ADD, wanted, 0) == 0);
	release(gate[1]);
	while ((seen & NOTE_EXIT) == 0) {
		struct kevent event = next_event(kq);

		ATF_REQUIRE(event.ident == (uintptr_t)pid && event.fflags != 0);
		ATF_REQUIRE((event.fflags & ~wanted) == 0 && (event.fflags & seen) == 0);
		seen |= event.fflags;
	}
	ATF_REQUIRE(seen == wanted);
	ATF_REQUIRE(wait_exit(pid, 0));
}

static void
fork_a_child_that_exits_with_2(void)
{
	pid_t pid;

	CHILD_REQUIRE(await_release(gate[0]));
	CHILD_REQUIRE((pid = fork()) != -1);
	if (pid == 0)
		_exit(2);
	CHILD_REQUIRE(waitpid(pid, NULL, 0) == pid);
	_exit(1);
}

ATF_TC_WITHOUT_HEAD(track_follows_forks);
ATF_TC_BODY(track_follows_forks, tc)
{
	int kq = new_kqueue(), ends = 0;
	pid_t pid, child = -1;
	bool forked = false;

	ATF_REQUIRE(pipe(gate) == 0);
	pid = start(fork_a_child_that_exits_with_2);
	ATF_REQUIRE(change(kq, pid, EVFILT_PROC, EV_ADD, NOTE_EXIT | NOTE_FORK | NOTE_TRACK, 0) == 0);
	release(gate[1]);
	while (ends < 2) {
		struct kevent event = next_event(kq);

		ATF_REQUIRE((event.fflags & NOTE_TRACKERR) == 0);
		if (event.fflags & NOTE_CHILD) {
			ATF_REQUIRE(event.data == pid && child == -1);
			child = (pid_t)event.ident;
			continue;
		}
		if (event.fflags & NOTE_FORK) {
			ATF_REQUIRE(event.ident == (uintptr_t)pid);
			forked = true;
		}
		if (event.fflags & NOTE_EXIT) {
			ATF_REQUIRE(event.data == (event.ident == (uintptr_t)pid ? EXITED_WITH(1) : EXITED_WITH(2)));
			ends++;
		}
	}
	ATF_REQUIRE(forked && child > pid);
	ATF_REQUIRE(wait_exit(pid, 1));
}

ATF_TC_WITHOUT_HEAD(exit_of_a_killed_zombie);
ATF_TC_BODY(exit_of_a_killed_zombie, tc)
{
	int kq = new_kqueue();
	pid_t pid = start(sleep_for_ever);
	struct kevent event;

	ATF_REQUIRE(kill(pid, SIGKILL) == 0);
	ATF_REQUIRE(change(kq, pid, EVFILT_PROC, EV_ADD, NOTE_EXIT, 0) == 0);
	event = next_event(kq);
	ATF_REQUIRE(event.fflags == NOTE_EXIT && event.data == SIGKILL);
	ATF_REQUIRE(wait_signaled(pid, SIGKILL));
}

ATF_TC_WITHOUT_HEAD(reading_and_its_end);
ATF_TC_BODY(reading_and_its_end, tc)
{
	int kq = new_kqueue(), ends[2];
	struct kevent event;
	char text[8];

	ATF_REQUIRE(pipe(ends) == 0);
	ATF_REQUIRE(change(kq, ends[0], EVFILT_READ, EV_ADD, 0, 0) == 0);
	ATF_REQUIRE(is_quiet(kq));
	ATF_REQUIRE(write(ends[1], "abc", 3) == 3);
	event = next_event(kq);
	ATF_REQUIRE(event.ident == (uintptr_t)ends[0] && event.data == 3 && (event.flags & EV_EOF) == 0);
	ATF_REQUIRE(read(ends[0], text, 2) == 2);
	ATF_REQUIRE(next_event(kq).data == 1);
	ATF_REQUIRE(read(ends[0], text, 2) == 1);
	ATF_REQUIRE(is_quiet(kq));
	close(ends[1]);
	ATF_REQUIRE(next_event(kq).flags & EV_EOF);
	close(ends[0]);
	ATF_REQUIRE(is_quiet(kq));
	ATF_REQUIRE_ERRNO(ENOENT, change(kq, ends[0], EVFILT_READ, EV_DELETE, 0, 0) == -1);
	ATF_REQUIRE_ERRNO(EBADF, change(kq, ends[0], EVFILT_READ, EV_ADD, 0, 0) == -1);
}

ATF_TC_WITHOUT_HEAD(cleared_events_come_again_with_more);
ATF_TC_BODY(cleared_events_come_again_with_more, tc)
{
	int kq = new_kqueue(), ends[2];
	char byte;

	ATF_REQUIRE(pipe(ends) == 0);
	ATF_REQUIRE(change(kq, ends[0], EVFILT_READ, EV_ADD | EV_CLEAR, 0, 0) == 0);
	release(ends[1]);
	ATF_REQUIRE(next_event(kq).data == 1);
	ATF_REQUIRE(is_quiet(kq));
	release(ends[1]);
	ATF_REQUIRE(next_event(kq).data == 2);
	ATF_REQUIRE(read(ends[0], &byte, 1) == 1);
	ATF_REQUIRE(is_quiet(kq));
	release(ends[1]);
	ATF_REQUIRE(next_event(kq).data == 2);
}

ATF_TC_WITHOUT_HEAD(writing);
ATF_TC_BODY(writing, tc)
{
	int kq = new_kqueue(), ends[2];
	struct kevent event;
	char text[4096];

	memset(text, 'x', sizeof(text));
	ATF_REQUIRE(pipe(ends) == 0);
	ATF_REQUIRE(change(kq, ends[1], EVFILT_WRITE, EV_ADD, 0, 0) == 0);
	event = next_event(kq);
	ATF_REQUIRE(event.filter == EVFILT_WRITE && event.data > 0);
	ATF_REQUIRE(fcntl(ends[1], F_SETFL, O_NONBLOCK) == 0);
	while (write(ends[1], text, sizeof(text)) > 0)
		;
	ATF_REQUIRE(is_quiet(kq));
	close(ends[0]);
	ATF_REQUIRE(next_event(kq).flags & EV_EOF);
}

static pid_t parent;

static void
signal_parent(void)
{
	CHILD_REQUIRE(kill(parent, SIGUSR1) == 0);
	CHILD_REQUIRE(kill(parent, SIGUSR1) == 0);
}

ATF_TC_WITHOUT_HEAD(ignored_signals_are_counted);
ATF_TC_BODY(ignored_signals_are_counted, tc)
{
	int kq = new_kqueue();
	struct kevent event;
	int64_t count = 0;
	pid_t pid;

	parent = getpid();
	ATF_REQUIRE(signal(SIGUSR1, SIG_IGN) != SIG_ERR);
	ATF_REQUIRE(change(kq, SIGUSR1, EVFILT_SIGNAL, EV_ADD, 0, 0) == 0);
	pid = start(signal_parent);
	while (count < 2) {
		event = next_event(kq);
		ATF_REQUIRE(event.ident == SIGUSR1 && event.filter == EVFILT_SIGNAL);
		ATF_REQUIRE(event.data >= 1);
		count += event.data;
	}
	ATF_REQUIRE(count == 2);
	ATF_REQUIRE(wait_exit(pid, 0));
	ATF_REQUIRE(is_quiet(kq));
	ATF_REQUIRE(raise(SIGUSR1) == 0);
	ATF_REQUIRE(next_event(kq).data == 1);
}

ATF_TC_WITHOUT_HEAD(sigchld_of_a_child);
ATF_TC_BODY(sigchld_of_a_child, tc)
{
	int kq = new_kqueue();
	pid_t pid;

	ATF_REQUIRE(change(kq, SIGCHLD, EVFILT_SIGNAL, EV_ADD, 0, 0) == 0);
	pid = start(exit_3);
	ATF_REQUIRE(next_event(kq).data == 1);
	ATF_REQUIRE(wait_exit(pid, 3));
	ATF_REQUIRE(is_quiet(kq));
}

static volatile sig_atomic_t handled;
static void handle(int sig) { (void)sig; handled++; }

ATF_TC_WITHOUT_HEAD(a_handler_ends_the_wait);
ATF_TC_BODY(a_handler_ends_the_wait, tc)
{
	int kq = new_kqueue();
	struct kevent event;
	struct timespec second = {1, 0};
	pid_t pid;
	int got;

	parent = getpid();
	ATF_REQUIRE(signal(SIGUSR1, handle) != SIG_ERR);
	pid = start(signal_parent);
	while (handled == 0) { /* it may come before the wait */
		got = kevent(kq, NULL, 0, &event, 1, &second);
		ATF_REQUIRE(got == 0 || (got == -1 && errno == EINTR));
	}
	ATF_REQUIRE(waitpid(pid, NULL, 0) == pid);
}

ATF_TC_WITHOUT_HEAD(timers_ring);
ATF_TC_BODY(timers_ring, tc)
{
	int kq = new_kqueue();
	struct kevent event;
	struct timespec soon = {0, 1000000};
	int64_t count = 0;

	ATF_REQUIRE(change(kq, 7, EVFILT_TIMER, EV_ADD, 0, 20) == 0);
	ATF_REQUIRE(kevent(kq, NULL, 0, &event, 1, &soon) <= 1);
	while (count < 3) {
		event = next_event(kq);
		ATF_REQUIRE(event.ident == 7 && event.filter == EVFILT_TIMER && event.data >= 1);
		count += event.data;
	}
	ATF_REQUIRE(change(kq, 7, EVFILT_TIMER, EV_DELETE, 0, 0) == 0);
	ATF_REQUIRE(change(kq, 8, EVFILT_TIMER, EV_ADD | EV_ONESHOT, NOTE_SECONDS, 1) == 0);
	ATF_REQUIRE(next_event(kq).ident == 8);
	ATF_REQUIRE_ERRNO(ENOENT, change(kq, 8, EVFILT_TIMER, EV_DELETE, 0, 0) == -1);
}

ATF_TC_WITHOUT_HEAD(the_time_of_a_wait_is_over);
ATF_TC_BODY(the_time_of_a_wait_is_over, tc)
{
	int kq = new_kqueue();
	struct kevent event;
	struct timespec before, after, second = {1, 0};

	ATF_REQUIRE(clock_gettime(CLOCK_MONOTONIC, &before) == 0);
	ATF_REQUIRE(kevent(kq, NULL, 0, &event, 1, &second) == 0);
	ATF_REQUIRE(clock_gettime(CLOCK_MONOTONIC, &after) == 0);
	ATF_REQUIRE(after.tv_sec > before.tv_sec);
}

ATF_TC_WITHOUT_HEAD(own_events);
ATF_TC_BODY(own_events, tc)
{
	int kq = new_kqueue();
	struct kevent event;

	ATF_REQUIRE(change(kq, 1, EVFILT_USER, EV_ADD | EV_CLEAR, NOTE_FFCOPY | 4, 0) == 0);
	ATF_REQUIRE(is_quiet(kq));
	ATF_REQUIRE(change(kq, 1, EVFILT_USER, 0, NOTE_TRIGGER | NOTE_FFOR | 1, 9) == 0);
	event = next_event(kq);
	ATF_REQUIRE(event.ident == 1 && event.fflags == 5 && event.data == 9);
	ATF_REQUIRE(is_quiet(kq));
}

ATF_TC_WITHOUT_HEAD(dispatched_and_disabled_events);
ATF_TC_BODY(dispatched_and_disabled_events, tc)
{
	int kq = new_kqueue(), ends[2];

	ATF_REQUIRE(pipe(ends) == 0);
	release(ends[1]);
	ATF_REQUIRE(change(kq, ends[0], EVFILT_READ, EV_ADD | EV_DISPATCH, 0, 0) == 0);
	ATF_REQUIRE(next_event(kq).data == 1);
	ATF_REQUIRE(is_quiet(kq));
	ATF_REQUIRE(change(kq, ends[0], EVFILT_READ, EV_ENABLE, 0, 0) == 0);
	ATF_REQUIRE(next_event(kq).data == 1);
	ATF_REQUIRE(change(kq, ends[0], EVFILT_READ, EV_ADD | EV_ONESHOT, 0, 0) == 0);
	ATF_REQUIRE(change(kq, ends[0], EVFILT_READ, EV_DELETE, 0, 0) == 0);
}

ATF_TC_WITHOUT_HEAD(errors_and_receipts);
ATF_TC_BODY(errors_and_receipts, tc)
{
	struct kevent changes[2], events[2];
	int kq = new_kqueue();

	EV_SET(&changes[0], 1, EVFILT_USER, EV_ADD | EV_RECEIPT, 0, 0, NULL);
	EV_SET(&changes[1], 99, EVFILT_USER, EV_DELETE, 0, 0, NULL);
	ATF_REQUIRE(kevent(kq, changes, 2, events, 2, NULL) == 2);
	ATF_REQUIRE(events[0].flags == EV_ERROR && events[0].data == 0);
	ATF_REQUIRE(events[1].flags == EV_ERROR && events[1].data == ENOENT && events[1].ident == 99);
	ATF_REQUIRE_ERRNO(ENOENT, kevent(kq, &changes[1], 1, NULL, 0, NULL) == -1);
	ATF_REQUIRE_ERRNO(EBADF, kevent(-1, NULL, 0, events, 1, NULL) == -1);
	close(kq);
	ATF_REQUIRE_ERRNO(EBADF, kevent(kq, NULL, 0, events, 1, NULL) == -1);
}

static void
has_no_kqueue(void)
{
	struct kevent event;

	CHILD_REQUIRE(kevent(gate[0], NULL, 0, &event, 1, &at_once) == -1 && errno == EBADF);
}

ATF_TC_WITHOUT_HEAD(a_forks_child_has_none);
ATF_TC_BODY(a_forks_child_has_none, tc)
{
	gate[0] = new_kqueue();
	ATF_REQUIRE(wait_exit(start(has_no_kqueue), 0));
}

ATF_TC_WITHOUT_HEAD(poll_of_a_kqueue);
ATF_TC_BODY(poll_of_a_kqueue, tc)
{
	struct pollfd ready = {.events = POLLIN};
	int kq = new_kqueue();
	pid_t pid;

	ready.fd = kq;
	pid = start(exit_3);
	ATF_REQUIRE(change(kq, pid, EVFILT_PROC, EV_ADD, NOTE_EXIT, 0) == 0);
	ATF_REQUIRE(poll(&ready, 1, -1) == 1 && ready.revents & POLLIN);
	ATF_REQUIRE(next_event(kq).data == EXITED_WITH(3));
	ATF_REQUIRE(poll(&ready, 1, 0) == 0);
	ATF_REQUIRE(wait_exit(pid, 3));
}

ATF_TP_ADD_TCS(tp)
{
	ATF_TP_ADD_TC(tp, exit_of_a_child);
	ATF_TP_ADD_TC(tp, fork_and_exec_of_a_child);
	ATF_TP_ADD_TC(tp, track_follows_forks);
	ATF_TP_ADD_TC(tp, exit_of_a_killed_zombie);
	ATF_TP_ADD_TC(tp, reading_and_its_end);
	ATF_TP_ADD_TC(tp, cleared_events_come_again_with_more);
	ATF_TP_ADD_TC(tp, writing);
	ATF_TP_ADD_TC(tp, ignored_signals_are_counted);
	ATF_TP_ADD_TC(tp, sigchld_of_a_child);
	ATF_TP_ADD_TC(tp, a_handler_ends_the_wait);
	ATF_TP_ADD_TC(tp, timers_ring);
	ATF_TP_ADD_TC(tp, the_time_of_a_wait_is_over);
	ATF_TP_ADD_TC(tp, own_events);
	ATF_TP_ADD_TC(tp, dispatched_and_disabled_events);
	ATF_TP_ADD_TC(tp, errors_and_receipts);
	ATF_TP_ADD_TC(tp, a_forks_child_has_none);
	ATF_TP_ADD_TC(tp, poll_of_a_kqueue);
	return (atf_no_error());
}
