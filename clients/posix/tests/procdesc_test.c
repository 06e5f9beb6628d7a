/* Process descriptors: pdfork(2), pdkill(2), pdgetpid(2), and what closing one does. */
#include "debugger.h"
#include <sys/event.h>
#include <sys/procdesc.h>
#include <poll.h>

static int gate[2];

static pid_t
start_described(int *fd, int flags, void (*body)(void))
{
	pid_t pid = pdfork(fd, flags);

	ATF_REQUIRE(pid != -1);
	if (pid == 0) {
		body();
		_exit(0);
	}
	return (pid);
}

static void exit_4(void) { _exit(4); }

ATF_TC_WITHOUT_HEAD(number_of_the_process);
ATF_TC_BODY(number_of_the_process, tc)
{
	pid_t pid, got = 0;
	int fd;

	pid = start_described(&fd, 0, sleep_for_ever);
	ATF_REQUIRE(pdgetpid(fd, &got) == 0 && got == pid);
	ATF_REQUIRE_ERRNO(EBADF, pdgetpid(0, &got) == -1);
	ATF_REQUIRE_ERRNO(EBADF, pdkill(0, SIGTERM) == -1);
	ATF_REQUIRE_ERRNO(EINVAL, pdfork(&fd, 0x1000) == -1);
}

ATF_TC_WITHOUT_HEAD(closing_kills);
ATF_TC_BODY(closing_kills, tc)
{
	char byte;
	int fd;

	ATF_REQUIRE(pipe(gate) == 0);
	(void)start_described(&fd, 0, sleep_for_ever);
	ATF_REQUIRE(close(gate[1]) == 0);
	ATF_REQUIRE(close(fd) == 0);
	ATF_REQUIRE(read(gate[0], &byte, 1) == 0);	/* the child had the other end too */
	ATF_REQUIRE(no_child_left());
}

static void await_gate(void) { CHILD_REQUIRE(await_release(gate[0])); }

ATF_TC_WITHOUT_HEAD(a_daemon_outlives_its_descriptor);
ATF_TC_BODY(a_daemon_outlives_its_descriptor, tc)
{
	pid_t pid;
	int fd;

	ATF_REQUIRE(pipe(gate) == 0);
	pid = start_described(&fd, PD_DAEMON, await_gate);
	ATF_REQUIRE(close(fd) == 0);
	ATF_REQUIRE(kill(pid, 0) == 0);
	release(gate[1]);
}

ATF_TC_WITHOUT_HEAD(killed_by_its_descriptor);
ATF_TC_BODY(killed_by_its_descriptor, tc)
{
	int fd, kq = kqueue();
	struct kevent event;

	(void)start_described(&fd, 0, sleep_for_ever);
	EV_SET(&event, fd, EVFILT_PROCDESC, EV_ADD, NOTE_EXIT, 0, NULL);
	ATF_REQUIRE(kevent(kq, &event, 1, NULL, 0, NULL) == 0);
	ATF_REQUIRE(pdkill(fd, SIGTERM) == 0);
	ATF_REQUIRE(kevent(kq, NULL, 0, &event, 1, NULL) == 1);
	ATF_REQUIRE(event.ident == (uintptr_t)fd && event.filter == EVFILT_PROCDESC);
	ATF_REQUIRE(event.fflags == NOTE_EXIT && event.data == SIGTERM);
}

ATF_TC_WITHOUT_HEAD(poll_sees_the_end);
ATF_TC_BODY(poll_sees_the_end, tc)
{
	struct pollfd ready = {.events = POLLIN};
	int fd;

	(void)start_described(&fd, 0, exit_4);
	ready.fd = fd;
	ATF_REQUIRE(poll(&ready, 1, -1) == 1 && ready.revents & POLLHUP);
}

/* A wait for any child doesn't report it, one for its number does. */
ATF_TC_WITHOUT_HEAD(waits_for_any_pass_it_over);
ATF_TC_BODY(waits_for_any_pass_it_over, tc)
{
	pid_t other, pid;
	int fd, status;

	pid = start_described(&fd, 0, exit_4);
	other = start(sleep_for_ever);
	ATF_REQUIRE(kill(other, SIGKILL) == 0);
	ATF_REQUIRE(wait(&status) == other && WIFSIGNALED(status));
	ATF_REQUIRE(no_child_left());
	ATF_REQUIRE(wait_exit(pid, 4));
}

static volatile sig_atomic_t chld;
static void note_chld(int sig) { (void)sig; chld++; }

ATF_TC_WITHOUT_HEAD(no_sigchld_of_its_end);
ATF_TC_BODY(no_sigchld_of_its_end, tc)
{
	struct pollfd ready = {.events = POLLIN};
	int fd;

	ATF_REQUIRE(signal(SIGCHLD, note_chld) != SIG_ERR);
	(void)start_described(&fd, 0, exit_4);
	ready.fd = fd;
	ATF_REQUIRE(poll(&ready, 1, -1) == 1);
	ATF_REQUIRE(chld == 0);
}

static void
leave_a_child(void)
{
	int fd;
	pid_t pid = pdfork(&fd, 0);

	CHILD_REQUIRE(pid != -1);
	if (pid == 0)
		sleep_for_ever();
	CHILD_REQUIRE(write(gate[1], &pid, sizeof(pid)) == sizeof(pid));
}

ATF_TC_WITHOUT_HEAD(its_makers_end_kills);
ATF_TC_BODY(its_makers_end_kills, tc)
{
	pid_t pid, child;
	char byte;

	ATF_REQUIRE(pipe(gate) == 0);
	pid = start(leave_a_child);
	ATF_REQUIRE(read(gate[0], &child, sizeof(child)) == sizeof(child));
	ATF_REQUIRE(wait_exit(pid, 0));
	close(gate[1]);
	ATF_REQUIRE(read(gate[0], &byte, 1) == 0);
	ATF_REQUIRE_ERRNO(ESRCH, kill(child, 0) == -1);
}

ATF_TP_ADD_TCS(tp)
{
	ATF_TP_ADD_TC(tp, number_of_the_process);
	ATF_TP_ADD_TC(tp, closing_kills);
	ATF_TP_ADD_TC(tp, a_daemon_outlives_its_descriptor);
	ATF_TP_ADD_TC(tp, killed_by_its_descriptor);
	ATF_TP_ADD_TC(tp, poll_sees_the_end);
	ATF_TP_ADD_TC(tp, waits_for_any_pass_it_over);
	ATF_TP_ADD_TC(tp, no_sigchld_of_its_end);
	ATF_TP_ADD_TC(tp, its_makers_end_kills);
	return (atf_no_error());
}
