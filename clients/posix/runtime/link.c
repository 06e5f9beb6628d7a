/* The socket of a thread: one question at a time, and its answer.
 *
 * A message is a line without a line feed: `WHERE NAME ARGUMENT..`, WHERE being the address of the program's call. The
 * answer is `ok [N..]` or `error ERRNO [N]`. In front there may be `calls` (PT_SYSCALL reports them) or `begun` (and this one
 * isn't over), `step` (the thread goes on by one instruction) and `land` (it asks `user` as its call returns). Before it there may come `handler SIGNAL CODE SENDER STATUS ADDRESS`
 * (the program's handler runs, and `handled` is sent), `registers CODE` (`at ADDRESS` is sent: of the record), `apply
 * KIND` (`done` is sent) and `anew` (`anew 1` is sent, and then the question of the call anew, or `anew 0`). Other answers are `end` (the process has ended in the model; its last handlers may run in the host) and
 * `die`. No answer comes before this thread may run: between two questions no other thread of any process runs. */
#define _GNU_SOURCE
#include <fcntl.h>
#include <stdarg.h>
#include <stdio.h>
#include <string.h>
#include <sys/eventfd.h>
#include <sys/socket.h>
#include <sys/syscall.h>
#include <unistd.h>
#include "freebsd.h"
#include "runtime.h"

const char tracehost_marker[] = "tracehost posix runtime, protocol 1";
static char no_answer[1];
static char first_stack[16384]; /* of a thread that isn't the runtime's */
__thread struct own own = {.now = {.top = first_stack + sizeof first_stack}, .fd = -1, .passed = -1, .at = no_answer};
_Static_assert(offsetof(struct now, top) == 8 && offsetof(struct now, inside) == 16 && offsetof(struct now, lands) == 20 &&
				   offsetof(struct now, reports) == 24 && offsetof(struct now, selector) == 28 &&
				   offsetof(struct now, watches) == 29 && offsetof(struct own, now) == 0 && sizeof(struct frame) == 160,
	"as entry.S has them");
int own_pid;
pid_t own_real;
int own_fds[THREADS];
static int spare[8]; /* for a program that has used up its descriptors */
static int ended; /* in the model */

void tracehost_say(const char *format, ...)
{
	char line[512] = "tracehost: ";
	size_t head = strlen(line);
	va_list arguments;
	va_start(arguments, format);
	int length = vsnprintf(line + head, sizeof line - head - 1, format, arguments);
	va_end(arguments);
	head += (size_t)length < sizeof line - head - 1 ? (size_t)length : sizeof line - head - 2;
	line[head++] = '\n';
	if (write(STDERR_FILENO, line, head) < 0)
		return;
}

void tracehost_broken(const char *what)
{
	char line[256];
	int length = snprintf(line, sizeof line, "0 broken %s: %s", what, strerror(errno));
	if (own.fd < 0)
		tracehost_say("%s", line + strlen("0 broken "));
	else
		send(own.fd, line, (size_t)length < sizeof line ? (size_t)length : sizeof line - 1, MSG_NOSIGNAL);
	_exit(EXIT_REFUSED);
}

void tracehost_tell(const char *format, ...)
{
	char line[2048];
	va_list arguments;
	va_start(arguments, format);
	vsnprintf(line, sizeof line, format, arguments);
	va_end(arguments);
	int fd = own.fd;
	for (int i = 0; i < THREADS && fd < 0; i++) /* a library's own thread has none */
		fd = own_fds[i] != 0 ? own_fds[i] : -1;
	send(fd, line, strlen(line), MSG_NOSIGNAL);
}

void tracehost_die(void)
{
	if (own.fd > 0) { /* pipes first, the socket last: the broker waits for its end */
		syscall(SYS_close_range, 0, own.fd - 1, 0);
		syscall(SYS_close_range, own.fd + 1, ~0U, 0);
	}
	_exit(0);
}

int tracehost_own_descriptor(int fd)
{
	if (fd < FIRST_FD)
		return 0;
	for (int i = 0; i < THREADS; i++)
		if (own_fds[i] == fd)
			return 1;
	for (size_t i = 0; i < sizeof spare / sizeof spare[0]; i++)
		if (spare[i] == fd)
			return 1;
	return tracehost_is_peer(fd);
}

/* A message that comes with a descriptor needs a free one. */
void tracehost_free_spare(void)
{
	tracehost_lift_limits();
	for (size_t i = 0; i < sizeof spare / sizeof spare[0]; i++)
		if (spare[i] > 0) {
			close(spare[i]);
			spare[i] = 0;
			return;
		}
}

void tracehost_fill_spare(void)
{
	int fd = -1;
	for (size_t i = 0; i < sizeof spare / sizeof spare[0]; i++)
		if (spare[i] <= 0) {
			fd = fd < 0 ? eventfd(0, EFD_CLOEXEC) : fd;
			spare[i] = fcntl(fd, F_DUPFD_CLOEXEC, FIRST_FD);
		}
	if (fd >= 0)
		close(fd);
	tracehost_lower_limits();
}

/* Whether a call on the socket goes on: a signal has come, or the program has set O_NONBLOCK of all descriptors. */
static int goes_on(void)
{
	const int error = errno;
	return error == EINTR || (error == EAGAIN && fcntl(own.fd, F_SETFL, 0) == 0);
}

static void send_line(const char *line, size_t length)
{
	ssize_t sent;
	do
		sent = send(own.fd, line, length, MSG_NOSIGNAL);
	while (sent < 0 && goes_on());
	if (sent < 0)
		tracehost_die();
}

/* The descriptor that came with a message, moved out of the program's way; -1 for none. */
static int descriptor_of(struct msghdr *message)
{
	struct cmsghdr *control = CMSG_FIRSTHDR(message);
	int given, moved;
	if (control == NULL || control->cmsg_type != SCM_RIGHTS)
		return -1;
	memcpy(&given, CMSG_DATA(control), sizeof given);
	if (given >= FIRST_FD)
		return given;
	moved = fcntl(given, F_DUPFD_CLOEXEC, FIRST_FD);
	close(given);
	if (moved < 0)
		tracehost_broken("no descriptor is left");
	return moved;
}

static void receive_line(void)
{
	char space[CMSG_SPACE(sizeof(int))];
	struct iovec text = {own.answer, sizeof own.answer - 1};
	struct msghdr message = {.msg_iov = &text, .msg_iovlen = 1, .msg_control = space, .msg_controllen = sizeof space};
	ssize_t got;
	do
		got = recvmsg(own.fd, &message, MSG_CMSG_CLOEXEC);
	while (got < 0 && goes_on());
	if (got <= 0)
		tracehost_die();
	own.answer[got] = 0;
	if (message.msg_controllen != 0)
		own.passed = descriptor_of(&message);
}

/* Questions of calls at which a cancelled thread ends: pthread_testcancel(3). */
static int is_cancellation_point(const char *question)
{
	static const char *const points[] = {"sleep ", "wait ", "suspend ", "pause", "sigwait ", "join ", "enter ", "masked ",
		"again read", "again write", "again poll", "again kevent", "again semaphore"};
	for (size_t i = 0; i < sizeof points / sizeof points[0]; i++)
		if (strncmp(question, points[i], strlen(points[i])) == 0)
			return 1;
	return 0;
}

/* Whether the answer begins with this word, which is taken away. */
static int takes(const char *word)
{
	size_t length = strlen(word);
	if (strncmp(own.answer, word, length) != 0)
		return 0;
	memmove(own.answer, own.answer + length, strlen(own.answer + length) + 1);
	return 1;
}

/* What isn't the end of a question: 0 for anything else. */
static int in_between(void)
{
	char line[32] = "0 done";
	if (strncmp(own.answer, "handler ", 8) == 0) {
		own.at = own.answer + 8;
		tracehost_handle((int)tracehost_number());
		strcpy(line, "0 handled");
	} else if (strncmp(own.answer, "registers ", 10) == 0) {
		tracehost_fetch(atoi(own.answer + 10));
		snprintf(line, sizeof line, "0 at %lu", (unsigned long)&own.record);
	} else if (strncmp(own.answer, "apply ", 6) == 0)
		tracehost_apply(atoi(own.answer + 6));
	else
		return 0;
	send_line(line, strlen(line));
	return 1;
}

int tracehost_ask(const void *where, const char *format, ...)
{
	char line[512];
	int length, steps, lands, result = 0;
	va_list arguments;
	if (ended)
		tracehost_die();
	if (own.fd < 0) {
		errno = ENXIO;
		tracehost_broken("a thread that pthread_create(3) didn't make has called");
	}
	if (own_real != syscall(SYS_getpid)) {
		errno = ENXIO;
		tracehost_broken("a process that fork(2) of the runtime didn't make has called");
	}
	const char *question = line + (length = snprintf(line, sizeof line, "%lx ", (unsigned long)where));
	va_start(arguments, format);
	length += vsnprintf(line + length, sizeof line - length, format, arguments);
	va_end(arguments);
	if ((size_t)length >= sizeof line)
		length = sizeof line - 1;
	jmp_buf *anew = own.anew; /* of a call's first question */
	own.anew = NULL;
	const int restarts = anew == NULL && own.now.inside && tracehost_may_restart(own.now.frame);
	if (own.now.inside)
		own.now.frame->asked = 1;
	if (tracehost_has_loaded)
		tracehost_look_at_loaded();
	int may_end = is_cancellation_point(question);
	if (may_end)
		tracehost_cancel_point();
	own.busy = 1;
	own.questions++;
	own.passed = -1;
	send_line(line, length);
	for (;;) {
		receive_line();
		if (strcmp(own.answer, "anew") == 0) {
			send_line(anew != NULL || restarts ? "0 anew 1" : "0 anew 0", 8);
			if (anew == NULL && !restarts)
				continue;
			own.busy = 0;
			if (restarts)
				tracehost_restart(own.now.frame);
			_longjmp(*anew, 1);
		}
		if (in_between())
			continue;
		own.begun = takes("begun "), own.now.reports = own.begun || takes("calls ");
		tracehost_watch_calls();
		steps = takes("step "), lands = takes("land ");
		if (strncmp(own.answer, "ok", 2) == 0) {
			own.at = own.answer + 2;
			break;
		}
		if (strncmp(own.answer, "error ", 6) == 0) {
			errno = strtol(own.answer + 6, &own.at, 10);
			result = -1;
			break;
		} else if (strcmp(own.answer, "end") == 0) {
			ended = 1;
			return 0; /* busy: no poke comes any more, and a fault is the host's */
		} else
			tracehost_die();
	}
	tracehost_go_on(steps, lands);
	own.busy = 0;
	if (own.cancels_at_once || (may_end && result != 0 && errno == EINTR))
		tracehost_cancel_point();
	return result;
}

long tracehost_number(void) { return strtol(own.at, &own.at, 10); }
