/* Process descriptors, pdfork(2): one end of a pair of sockets, whose other end is closed as the process ends, so that
 * poll(2) reports POLLHUP. Only the process that made one can use it. */
#define _GNU_SOURCE
#include <fcntl.h>
#include <sys/socket.h>
#include <unistd.h>
#include "../include/sys/procdesc.h"
#include "freebsd.h"
#include "runtime.h"

static struct described {
	int fd, pid, peer, ended;
} descriptors[256];
static int live;
enum { DESCRIBED = sizeof descriptors / sizeof descriptors[0] };

static struct described *find(int fd)
{
	for (int i = 0; i < DESCRIBED; i++)
		if (descriptors[i].pid != 0 && descriptors[i].fd == fd)
			return &descriptors[i];
	return NULL;
}

int tracehost_described(int fd)
{
	const struct described *found = find(fd);
	return found == NULL ? 0 : found->pid;
}

int tracehost_is_peer(int fd)
{
	for (int i = 0; live > 0 && i < DESCRIBED; i++)
		if (descriptors[i].pid != 0 && descriptors[i].peer == fd)
			return 1;
	return 0;
}

int tracehost_has_descriptors(void) { return live > 0; }

static void hang_up(struct described *described)
{
	if (described->peer >= 0)
		close(described->peer);
	described->peer = -1;
}

void tracehost_described_end(int pid)
{
	for (int i = 0; i < DESCRIBED; i++)
		if (descriptors[i].pid == pid) {
			descriptors[i].ended = 1;
			hang_up(&descriptors[i]);
		}
}

/* A pair of sockets for a process that isn't there yet: 0, or -1. */
static int open_pair(struct described *made, int flags)
{
	int ends[2];
	if (socketpair(AF_UNIX, SOCK_STREAM | SOCK_CLOEXEC, 0, ends) != 0)
		return -1;
	made->fd = ends[0];
	if (!(flags & PD_CLOEXEC))
		fcntl(ends[0], F_SETFD, 0);
	tracehost_lift_limits();
	made->peer = fcntl(ends[1], F_DUPFD_CLOEXEC, FIRST_FD);
	tracehost_lower_limits();
	close(ends[1]);
	return made->peer < 0 ? close(made->fd), -1 : 0;
}

pid_t tracehost_pdfork(int *fd, int flags)
{
	struct described made = {.fd = -1, .peer = -1};
	int place = 0;
	while (place < DESCRIBED && descriptors[place].pid != 0)
		place++;
	if (place == DESCRIBED || flags & ~(PD_DAEMON | PD_CLOEXEC)) {
		errno = place == DESCRIBED ? EMFILE : EINVAL;
		return -1;
	}
	if (open_pair(&made, flags) != 0)
		return -1;
	pid_t pid = tracehost_make_child(HERE, flags & PD_DAEMON ? "pdfork 1" : "pdfork 0");
	if (pid <= 0) {
		close(made.fd);
		close(made.peer);
		return pid;
	}
	made.pid = pid;
	descriptors[place] = made;
	live++;
	ask("watch %d 0", pid);
	if (tracehost_number() == 1)
		tracehost_described_end(pid);
	*fd = made.fd;
	return pid;
}

int tracehost_pdkill(int fd, int number)
{
	int pid = tracehost_described(fd);
	if (pid == 0) {
		ask("call %d", SYSCALL_PDKILL);
		errno = EBADF;
		return -1;
	}
	return ask("kill %d %d", pid, number);
}

int tracehost_pdgetpid(int fd, pid_t *pid)
{
	int found = tracehost_described(fd);
	ask("call %d", SYSCALL_PDGETPID);
	if (found == 0) {
		errno = EBADF;
		return -1;
	}
	*pid = found;
	return 0;
}

void tracehost_close_described(int fd)
{
	struct described *found = find(fd);
	if (found == NULL)
		return;
	int pid = found->pid;
	hang_up(found);
	found->pid = 0;
	live--;
	ask("undescribed %d", pid);
}

/* In a fork's child. */
void tracehost_no_descriptors(void)
{
	live = 0;
	for (int i = 0; i < DESCRIBED; i++)
		if (descriptors[i].pid != 0) {
			hang_up(&descriptors[i]);
			close(descriptors[i].fd);
			descriptors[i].pid = 0;
		}
}
