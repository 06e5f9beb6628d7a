/* Input and output. The descriptors are the host's; a call never blocks there: if it would, others go on first. */
#define _GNU_SOURCE
#include <fcntl.h>
#include <limits.h>
#include <poll.h>
#include <stdio.h>
#include <string.h>
#include <sys/select.h>
#include <sys/socket.h>
#include <sys/stat.h>
#include <sys/syscall.h>
#include <sys/uio.h>
#include <linux/close_range.h>
#include <unistd.h>
#include "freebsd.h"
#include "runtime.h"

/* The files that standard input, output and error were at the server's start are outside: a read there waits for the world. */
static struct {
	unsigned long device, inode;
} outside[3];

void tracehost_note_outside(void)
{
	struct stat st;
	for (int fd = 0; fd < 3; fd++)
		if (fstat(fd, &st) == 0)
			outside[fd].device = st.st_dev, outside[fd].inode = st.st_ino;
}

/* For the next image: DEVICE:INODE of each. */
void tracehost_write_outside(char *text, size_t room)
{
	snprintf(text, room, "%lx:%lx %lx:%lx %lx:%lx", outside[0].device, outside[0].inode, outside[1].device, outside[1].inode,
		outside[2].device, outside[2].inode);
}

/* What comes behind them; NULL for another text. */
const char *tracehost_read_outside(const char *text)
{
	int length;
	return sscanf(text, " %lx:%lx %lx:%lx %lx:%lx%n", &outside[0].device, &outside[0].inode, &outside[1].device, &outside[1].inode,
			   &outside[2].device, &outside[2].inode, &length) == 6
			   ? text + length
			   : NULL;
}

int tracehost_is_standard(const struct stat *of)
{
	for (int i = 0; i < 3; i++)
		if (outside[i].device == of->st_dev && outside[i].inode == of->st_ino)
			return 1;
	return 0;
}

static int is_outside(int fd)
{
	struct stat st;
	if (fstat(fd, &st) != 0)
		return 1;
	return S_ISREG(st.st_mode) || S_ISDIR(st.st_mode) || S_ISBLK(st.st_mode) || tracehost_is_standard(&st);
}

static int nonblocking(int fd) { return fcntl(fd, F_GETFL) & O_NONBLOCK; }

/* One try that doesn't block; -1 with EAGAIN if it would. */
static ssize_t try_read(int fd, void *to, size_t count)
{
	ssize_t got = recv(fd, to, count, MSG_DONTWAIT);
	if (got >= 0 || errno != ENOTSOCK)
		return got;
	struct pollfd ready = {.fd = fd, .events = POLLIN};
	if (!is_outside(fd) && tracehost_look(&ready) == 0) {
		errno = EAGAIN;
		return -1;
	}
	return read(fd, to, count);
}

static ssize_t try_write(int fd, const void *from, size_t count)
{
	ssize_t put = send(fd, from, count, MSG_DONTWAIT | MSG_NOSIGNAL);
	if (put >= 0 || errno != ENOTSOCK)
		return put;
	struct pollfd ready = {.fd = fd, .events = POLLOUT};
	if (!is_outside(fd) && tracehost_look(&ready) == 0) {
		errno = EAGAIN;
		return -1;
	}
	size_t room = tracehost_room_in(fd, count);
	if (room == 0 && count > 0) {
		errno = EFBIG;
		return -1;
	}
	return write(fd, from, room);
}

static void leave(const void *where)
{
	int saved = errno;
	tracehost_ask(where, "leave");
	errno = saved;
}

static ssize_t read_all(const void *where, int code, int fd, void *to, size_t count)
{
	ssize_t got = -1;
	tracehost_ask(where, "enter %d read %d", code, fd);
	if (tracehost_own_descriptor(fd))
		errno = EBADF;
	else
		while ((got = try_read(fd, to, count)) < 0 && errno == EAGAIN && !nonblocking(fd))
			if (tracehost_ask(where, "again read %d", fd) != 0)
				return -1;
	leave(where);
	return got;
}

static ssize_t write_all(const void *where, int code, int fd, const void *from, size_t count)
{
	size_t done = 0;
	ssize_t put = -1;
	tracehost_ask(where, "enter %d write %d", code, fd);
	if (tracehost_own_descriptor(fd))
		errno = EBADF;
	else
		do {
			put = try_write(fd, (const char *)from + done, count - done);
			if (put > 0)
				done += put;
			else if (put == 0 || errno != EAGAIN || nonblocking(fd))
				break;
			else if (tracehost_ask(where, "again write %d", fd) != 0)
				return done > 0 ? (ssize_t)done : -1;
		} while (done < count);
	int saved = errno;
	leave(where);
	if (put < 0 && (saved == EPIPE || (saved == EFBIG && done == 0)))
		tracehost_ask(where, "thr_kill %d %d", own.tid, saved == EPIPE ? BSD_SIGPIPE : BSD_SIGXFSZ);
	errno = saved;
	return done > 0 ? (ssize_t)done : put;
}

ssize_t tracehost_read(int fd, void *to, size_t count) { return read_all(HERE, SYSCALL_READ, fd, to, count); }
ssize_t tracehost_write(int fd, const void *from, size_t count) { return write_all(HERE, SYSCALL_WRITE, fd, from, count); }

/* The size of all parts together; -1 with EINVAL. */
static ssize_t total(const struct iovec *parts, int count)
{
	size_t sum = 0;
	if (count < 0 || count > IOV_MAX) {
		errno = EINVAL;
		return -1;
	}
	for (int i = 0; i < count; i++)
		sum += parts[i].iov_len;
	return (ssize_t)sum;
}

ssize_t tracehost_readv(int fd, const struct iovec *parts, int count)
{
	ssize_t size = total(parts, count), got;
	char *text = size < 0 ? NULL : malloc(size + 1), *at = text;
	if (text == NULL)
		return -1;
	got = read_all(HERE, SYSCALL_READV, fd, text, size);
	for (ssize_t left = got; left > 0; parts++) {
		size_t part = (size_t)left < parts->iov_len ? (size_t)left : parts->iov_len;
		memcpy(parts->iov_base, at, part);
		at += part, left -= part;
	}
	free(text);
	return got;
}

ssize_t tracehost_writev(int fd, const struct iovec *parts, int count)
{
	ssize_t size = total(parts, count), put;
	char *text = size < 0 ? NULL : malloc(size + 1), *at = text;
	if (text == NULL)
		return -1;
	for (int i = 0; i < count; i++) {
		memcpy(at, parts[i].iov_base, parts[i].iov_len);
		at += parts[i].iov_len;
	}
	put = write_all(HERE, SYSCALL_WRITEV, fd, text, size);
	free(text);
	return put;
}

/* FreeBSD's pipes go both ways. */
int tracehost_pipe(int ends[2])
{
	ask("call %d", SYSCALL_PIPE2);
	return socketpair(AF_UNIX, SOCK_STREAM, 0, ends);
}

int tracehost_pipe2(int ends[2], int flags)
{
	ask("call %d", SYSCALL_PIPE2);
	return socketpair(
		AF_UNIX, SOCK_STREAM | (flags & O_CLOEXEC ? SOCK_CLOEXEC : 0) | (flags & O_NONBLOCK ? SOCK_NONBLOCK : 0), 0, ends);
}

int tracehost_socketpair(int domain, int type, int protocol, int ends[2])
{
	ask("call %d", SYSCALL_SOCKETPAIR);
	return socketpair(domain, type, protocol, ends);
}

int tracehost_close(int fd)
{
	ask("io %d", SYSCALL_CLOSE);
	if (tracehost_own_descriptor(fd)) {
		errno = EBADF;
		return -1;
	}
	tracehost_forget_descriptor(fd);
	return close(fd);
}

static int close_all(unsigned lowest, unsigned highest, int flags)
{
	for (int fd = (int)lowest; flags == 0 && fd < DESCRIPTORS && (unsigned)fd <= highest; fd++)
		tracehost_forget_descriptor(fd);
	if (lowest < FIRST_FD && syscall(SYS_close_range, lowest, highest < FIRST_FD ? highest : FIRST_FD - 1, flags) != 0)
		return -1;
	for (int fd = lowest < FIRST_FD ? FIRST_FD : (int)lowest; fd < DESCRIPTORS && (unsigned)fd <= highest; fd++)
		if (!tracehost_own_descriptor(fd)) {
			if (flags == 0)
				close(fd);
			else
				fcntl(fd, F_SETFD, FD_CLOEXEC);
		}
	return 0;
}

void tracehost_closefrom(int lowest)
{
	ask("io %d", SYSCALL_CLOSE_RANGE);
	close_all(lowest < 0 ? 0 : lowest, ~0U, 0);
}

int tracehost_close_range(unsigned lowest, unsigned highest, int flags)
{
	ask("io %d", SYSCALL_CLOSE_RANGE);
	if (lowest > highest || (flags & ~CLOSE_RANGE_CLOEXEC) != 0) {
		errno = EINVAL;
		return -1;
	}
	return close_all(lowest, highest, flags);
}

int tracehost_dup(int fd)
{
	ask("call %d", SYSCALL_DUP);
	if (tracehost_own_descriptor(fd)) {
		errno = EBADF;
		return -1;
	}
	return dup(fd);
}

int tracehost_dup2(int from, int to)
{
	ask("io %d", SYSCALL_DUP2);
	if (tracehost_own_descriptor(from) || tracehost_own_descriptor(to)) {
		errno = EBADF;
		return -1;
	}
	if (from != to && fcntl(from, F_GETFD) >= 0)
		tracehost_forget_descriptor(to);
	return dup2(from, to);
}

int tracehost_dup3(int from, int to, int flags)
{
	if (from == to || flags & ~O_CLOEXEC) {
		ask("io %d", SYSCALL_DUP2);
		errno = EINVAL;
		return -1;
	}
	int made = tracehost_dup2(from, to);
	if (made >= 0 && flags & O_CLOEXEC)
		fcntl(made, F_SETFD, FD_CLOEXEC);
	return made;
}

/* ---- waiting for several descriptors, in ppoll(2) and pselect(2) under another mask */

static long long ns_of(const struct timespec *time) { return time == NULL ? -1 : time->tv_sec * 1000000000LL + time->tv_nsec; }

static int enter_masked(const void *where, int code, const char *name, const sigset_t *mask)
{
	if (mask != NULL)
		return tracehost_ask(where, "masked %d %u", code, tracehost_bits(mask));
	return tracehost_ask(where, "enter %d %s 0", code, name);
}

/* Whether to look once more: 1; 0 if the time is over, and -1 if a signal has come. */
static int once_more(const void *where, long long timeout)
{
	if (timeout == 0)
		return 0;
	if (tracehost_ask(where, "again poll %lld", timeout) != 0)
		return -1;
	return tracehost_number() == 1 ? 0 : 1;
}

/* Out of the call: what the last look has said, unless a signal has come. */
static int leave_masked(const void *where, const sigset_t *mask, int more, int got)
{
	if (mask != NULL) {
		int saved = errno;
		tracehost_ask(where, "restore");
		errno = saved;
	} else if (more >= 0)
		leave(where);
	return more < 0 ? -1 : got;
}

static int poll_until(const void *where, int code, struct pollfd *fds, nfds_t count, long long timeout, const sigset_t *mask)
{
	int got, more = 1;
	if (enter_masked(where, code, "poll", mask) != 0)
		return -1;
	while ((tracehost_refresh_kqueues(where), got = poll(fds, count, 0)) == 0 && more > 0)
		more = once_more(where, timeout);
	return leave_masked(where, mask, more, got);
}

int tracehost_poll(struct pollfd *fds, nfds_t count, int timeout)
{
	return poll_until(HERE, SYSCALL_POLL, fds, count, timeout < 0 ? -1LL : timeout * 1000000LL, NULL);
}

int tracehost_ppoll(struct pollfd *fds, nfds_t count, const struct timespec *timeout, const sigset_t *mask)
{
	if (timeout != NULL && (timeout->tv_sec < 0 || tracehost_no_time(timeout))) {
		errno = EINVAL;
		return -1;
	}
	return poll_until(HERE, SYSCALL_PPOLL, fds, count, ns_of(timeout), mask);
}

struct sets {
	fd_set *given[3];
	fd_set wanted[3];
};

/* One look, at the descriptors that were asked for. */
static int look(int count, struct sets *sets)
{
	struct timeval none = {0, 0};
	for (int i = 0; i < 3; i++)
		if (sets->given[i] != NULL)
			*sets->given[i] = sets->wanted[i];
	return select(count, sets->given[0], sets->given[1], sets->given[2], &none);
}

static int select_until(const void *where, int code, int count, struct sets *sets, long long timeout, const sigset_t *mask)
{
	int got, more = 1;
	for (int i = 0; i < 3; i++)
		if (sets->given[i] != NULL)
			sets->wanted[i] = *sets->given[i];
	if (enter_masked(where, code, "select", mask) != 0)
		return -1;
	while ((tracehost_refresh_kqueues(where), got = look(count, sets)) == 0 && more > 0)
		more = once_more(where, timeout);
	return leave_masked(where, mask, more, got);
}

int tracehost_select(int count, fd_set *in, fd_set *out, fd_set *exceptional, struct timeval *timeout)
{
	struct sets sets = {.given = {in, out, exceptional}};
	return select_until(HERE, SYSCALL_SELECT, count, &sets,
		timeout == NULL ? -1 : timeout->tv_sec * 1000000000LL + timeout->tv_usec * 1000LL, NULL);
}

int tracehost_pselect(int count, fd_set *in, fd_set *out, fd_set *exceptional, const struct timespec *timeout, const sigset_t *mask)
{
	struct sets sets = {.given = {in, out, exceptional}};
	return select_until(HERE, SYSCALL_PSELECT, count, &sets, ns_of(timeout), mask);
}
