/* readv(2), writev(2), dup2(2), dup3(3), closefrom(2), close_range(2), and waits for descriptors, on files, FIFOs, pipes and
 * sockets, with what their manual pages let them refuse.
 *
 * prints: file|fifo|pipe|copies|waits
 * schedules: 5
 */
#define _GNU_SOURCE
#include <errno.h>
#include <fcntl.h>
#include <limits.h>
#include <poll.h>
#include <signal.h>
#include <stdio.h>
#include <stdlib.h>
#include <string.h>
#include <sys/select.h>
#include <sys/socket.h>
#include <sys/stat.h>
#include <sys/uio.h>
#include <unistd.h>

#define CHECK(holds) ((holds) ? (void)0 : (printf("line %d: %s, errno %d\n", __LINE__, #holds, errno), exit(1)))
#define FAILS(call, number) CHECK((errno = 0, (call) == -1 && errno == (number)))

static char folder[4096], front[2], back[9];
static struct iovec put[3] = {{"ab", 2}, {"", 0}, {"cde", 3}}, got[2] = {{front, 2}, {back, 9}};

static const char *in_folder(const char *name)
{
	static char path[5000];
	snprintf(path, sizeof path, "%s/%s", folder, name);
	return path;
}

/* What was gathered comes back in the parts that it is scattered to. */
static void goes_round(int from, int to)
{
	memset(front, 0, sizeof front), memset(back, 0, sizeof back);
	CHECK(writev(to, put, 3) == 5 && (from != to || lseek(from, 0, SEEK_SET) == 0));
	CHECK(readv(from, got, 2) == 5 && memcmp(front, "ab", 2) == 0 && strcmp(back, "cde") == 0);
}

static void file(void)
{
	int fd = open(in_folder("file"), O_RDWR | O_CREAT, 0600);
	char text[8];
	CHECK(fd >= 0);
	goes_round(fd, fd);
	CHECK(read(fd, text, sizeof text) == 0 && readv(fd, got, 2) == 0);
	FAILS(readv(fd, got, -1), EINVAL);
	FAILS(writev(fd, put, -1), EINVAL);
	FAILS(readv(fd, got, IOV_MAX + 1), EINVAL);
	FAILS(writev(fd, put, IOV_MAX + 1), EINVAL);
	CHECK(close(fd) == 0 && unlink(in_folder("file")) == 0);
	FAILS(readv(fd, got, 2), EBADF);
	FAILS(writev(fd, put, 3), EBADF);
	FAILS(close(fd), EBADF);
	puts("file");
}

static void fifo(void)
{
	char text[4096] = "";
	ssize_t made;
	size_t all = 0;
	CHECK(mkfifo(in_folder("fifo"), 0600) == 0);
	int fd = open(in_folder("fifo"), O_RDWR | O_NONBLOCK), copy = dup(fd);
	CHECK(fd >= 0);
	FAILS(read(fd, text, 1), EAGAIN);
	goes_round(fd, copy);
	while ((made = write(fd, text, sizeof text)) > 0)
		all += (size_t)made;
	CHECK(made == -1 && errno == EAGAIN && all >= 4096);
	CHECK(read(fd, text, sizeof text) == sizeof text && close(fd) == 0 && unlink(in_folder("fifo")) == 0);
	puts("fifo");
}

static void pipes(void)
{
	int ends[2], others[2];
	char byte;
	CHECK(pipe(ends) == 0 && pipe2(others, O_NONBLOCK | O_CLOEXEC) == 0);
	goes_round(ends[0], ends[1]);
	CHECK((fcntl(ends[0], F_GETFD) & FD_CLOEXEC) == 0 && fcntl(others[1], F_GETFD) & FD_CLOEXEC);
	FAILS(read(others[0], &byte, 1), EAGAIN);
	CHECK(close(others[1]) == 0 && read(others[0], &byte, 1) == 0);
	CHECK(close(others[0]) == 0 && close(ends[0]) == 0);
	CHECK(signal(SIGPIPE, SIG_IGN) != SIG_ERR);
	FAILS(write(ends[1], "x", 1), EPIPE);
	CHECK(close(ends[1]) == 0);
	CHECK(socketpair(AF_UNIX, SOCK_STREAM, 0, ends) == 0);
	goes_round(ends[0], ends[1]);
	FAILS(socketpair(AF_UNIX, 99, 0, ends), EINVAL);
	CHECK(close(ends[0]) == 0 && close(ends[1]) == 0);
	puts("pipe");
}

static void copies(void)
{
	int fd = open("/dev/null", O_RDONLY), high = 40;
	CHECK(fd >= 0 && dup2(fd, high) == high && dup2(fd, fd) == fd);
	FAILS(dup2(-1, high), EBADF);
	FAILS(dup2(fd, -1), EBADF);
	FAILS(dup(-1), EBADF);
	CHECK(dup3(fd, high + 1, O_CLOEXEC) == high + 1 && fcntl(high + 1, F_GETFD) == FD_CLOEXEC && fcntl(high, F_GETFD) == 0);
	FAILS(dup3(fd, fd, 0), EINVAL);
	FAILS(dup3(fd, high, O_APPEND), EINVAL);
	FAILS(close_range(high, fd, 0), EINVAL);
	CHECK(close_range(high, high, CLOSE_RANGE_CLOEXEC) == 0 && fcntl(high, F_GETFD) == FD_CLOEXEC);
	CHECK(close_range(high, high, 0) == 0 && fcntl(high, F_GETFD) == -1 && fcntl(high + 1, F_GETFD) == FD_CLOEXEC);
	closefrom(fd);
	CHECK(fcntl(fd, F_GETFD) == -1 && fcntl(high + 1, F_GETFD) == -1 && fcntl(2, F_GETFD) >= 0);
	puts("copies");
}

static void waits(void)
{
	int ends[2];
	fd_set in;
	sigset_t none;
	struct timeval no_time = {0, 0}, soon = {0, 1000};
	struct timespec negative = {0, -1}, past = {-1, 0}, short_time = {0, 1000000};
	CHECK(pipe(ends) == 0 && sigemptyset(&none) == 0);
	struct pollfd wanted[2] = {{.fd = ends[0], .events = POLLIN}, {.fd = -1, .events = POLLIN}};
	CHECK(poll(wanted, 2, 0) == 0 && poll(wanted, 2, 1) == 0 && ppoll(wanted, 2, &short_time, &none) == 0);
	FAILS(ppoll(wanted, 2, &negative, NULL), EINVAL);
	FAILS(ppoll(wanted, 2, &past, NULL), EINVAL);
	FD_ZERO(&in);
	FD_SET(ends[0], &in);
	CHECK(select(ends[0] + 1, &in, NULL, NULL, &no_time) == 0 && !FD_ISSET(ends[0], &in));
	FD_SET(ends[0], &in);
	CHECK(select(ends[0] + 1, &in, NULL, NULL, &soon) == 0 && write(ends[1], "x", 1) == 1);
	FD_SET(ends[0], &in);
	CHECK(pselect(ends[0] + 1, &in, NULL, NULL, NULL, &none) == 1 && FD_ISSET(ends[0], &in));
	CHECK(poll(wanted, 2, -1) == 1 && wanted[0].revents == POLLIN && wanted[1].revents == 0);
	CHECK(ppoll(wanted, 2, NULL, &none) == 1 && close(ends[0]) == 0 && close(ends[1]) == 0);
	CHECK(poll(wanted, 1, 0) == 1 && wanted[0].revents == POLLNVAL);
	FD_SET(ends[0], &in);
	FAILS(select(ends[0] + 1, &in, NULL, NULL, NULL), EBADF);
	puts("waits");
}

int main(void)
{
	const char *temporary = getenv("TMPDIR");
	snprintf(folder, sizeof folder, "%s/vectors.XXXXXX", temporary != NULL ? temporary : "/tmp");
	CHECK(mkdtemp(folder) != NULL);
	file();
	fifo();
	pipes();
	copies();
	waits();
	return rmdir(folder);
}
