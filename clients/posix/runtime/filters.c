/* The filters of kqueue(2): what a note needs as it is made, and when it is active. */
#define _GNU_SOURCE
#include <poll.h>
#include <sys/ioctl.h>
#include <sys/socket.h>
#include <sys/stat.h>
#include <linux/sockios.h>
#include <unistd.h>
#include "freebsd.h"
#include "kqueue.h"
#include "runtime.h"

void tracehost_end(struct note *note, int status)
{
	note->gone = note->active = 1;
	note->event.flags |= EV_EOF | EV_ONESHOT;
	note->event.fflags |= note->wanted & NOTE_EXIT;
	if (note->event.fflags & NOTE_EXIT)
		note->event.data = status;
}

int tracehost_watch_process(struct note *note, int pid)
{
	if (tracehost_ask(NULL, "watch %d %d", pid, (note->wanted & NOTE_TRACK) != 0) != 0)
		return errno;
	note->pid = pid;
	note->event.flags |= EV_CLEAR;
	int ended = (int)tracehost_number(), status = (int)tracehost_number();
	if (ended && !(note->wanted & NOTE_EXIT))
		return ESRCH;
	if (ended)
		tracehost_end(note, status);
	return 0;
}

int tracehost_set_timer(struct note *note, long long now)
{
	static const struct {
		unsigned flag;
		long long ns;
	} units[] = {{NOTE_SECONDS, 1000000000}, {NOTE_MSECONDS, 1000000}, {NOTE_USECONDS, 1000}, {NOTE_NSECONDS, 1}};
	long long unit = 1000000;
	for (size_t i = 0; i < sizeof units / sizeof units[0]; i++)
		if (note->wanted & units[i].flag)
			unit = units[i].ns;
	long long time = (note->given > 0 || note->wanted & NOTE_ABSTIME ? note->given : 1) * unit;
	if (note->given < 0)
		return EINVAL;
	note->event.flags |= EV_CLEAR;
	note->period = note->wanted & NOTE_ABSTIME || note->event.flags & EV_ONESHOT ? 0 : time;
	if (note->wanted & NOTE_ABSTIME)
		note->next = tracehost_moment(CLOCK_REALTIME, &(struct timespec){time / 1000000000, time % 1000000000});
	else
		note->next = now + time;
	note->active = 0, note->event.data = 0;
	return 0;
}

int tracehost_attach(struct note *note, long long now)
{
	struct stat st;
	int ident = (int)note->event.ident;
	switch (note->event.filter) {
	case EVFILT_READ:
	case EVFILT_WRITE: note->seen = -1; return tracehost_own_descriptor(ident) || fstat(ident, &st) != 0 ? EBADF : 0;
	case EVFILT_PROC: return tracehost_watch_process(note, ident);
	case EVFILT_PROCDESC: {
		int pid = tracehost_described(ident);
		return pid == 0 ? EBADF : tracehost_watch_process(note, pid);
	}
	case EVFILT_SIGNAL:
		if (ident < 1 || ident > BSD_SIGNALS)
			return EINVAL;
		note->pid = ident;
		note->event.flags |= EV_CLEAR;
		return tracehost_ask(NULL, "count %d 1", ident) != 0 ? errno : 0;
	case EVFILT_TIMER: return tracehost_set_timer(note, now);
	case EVFILT_USER: return 0;
	default: tracehost_say("kevent: filter %d isn't among those of this runtime (EINVAL)", note->event.filter); return EINVAL;
	}
}

/* ---- descriptors and timers, at a look */

static int64_t level_to_read(int fd, short events, const struct stat *st)
{
	int bytes = 0;
	if (S_ISREG(st->st_mode))
		return st->st_size - lseek(fd, 0, SEEK_CUR);
	if (ioctl(fd, FIONREAD, &bytes) == 0)
		return bytes;
	return events & POLLIN ? 1 : 0; /* a connection that waits */
}

static int64_t level_to_write(int fd, short events)
{
	int room = 0, queued = 0;
	socklen_t size = sizeof room;
	if (!(events & POLLOUT))
		return 0;
	if (getsockopt(fd, SOL_SOCKET, SO_SNDBUF, &room, &size) == 0 && ioctl(fd, SIOCOUTQ, &queued) == 0)
		return room > queued ? room - queued : 1;
	return 4096;
}

void tracehost_look_at_descriptor(struct note *note)
{
	int fd = (int)note->event.ident, reads = note->event.filter == EVFILT_READ;
	struct pollfd ready = {.fd = fd, .events = reads ? POLLIN | POLLRDHUP : POLLOUT};
	struct stat st;
	if (fstat(fd, &st) != 0)
		return;
	tracehost_look(&ready);
	int64_t level = reads ? level_to_read(fd, ready.revents, &st) : level_to_write(fd, ready.revents);
	int64_t least = note->wanted & NOTE_LOWAT ? note->given : 1;
	int over = ready.revents & (reads ? POLLRDHUP | POLLHUP : POLLHUP | POLLERR);
	int is_active = over || level >= least || (reads && S_ISREG(st.st_mode) && note->wanted & NOTE_FILE_POLL);
	if (level < note->seen)
		note->seen = level; /* it was read, or written, meanwhile */
	if (note->event.flags & EV_CLEAR && level <= note->seen && !(over && !(note->event.flags & EV_EOF)))
		is_active = 0;
	note->active = is_active;
	note->event.data = level;
	if (is_active)
		note->event.flags = (unsigned short)((note->event.flags & ~EV_EOF) | (over ? EV_EOF : 0));
}

void tracehost_look_at_timer(struct note *note, long long now)
{
	if (note->next < 0 || now < note->next)
		return;
	int64_t rung = note->period > 0 ? 1 + (now - note->next) / note->period : 1;
	note->event.data += rung, note->active = 1;
	note->next = note->period > 0 ? note->next + rung * note->period : -1;
}
