/* kqueue(2). A kqueue's descriptor is an eventfd of the host's, and its events are here; what happens to processes, which
 * signals come, and the time are the broker's, which is asked at each look. A fork's child has none of it. */
#define _GNU_SOURCE
#include <sys/eventfd.h>
#include <unistd.h>
#include "freebsd.h"
#include "kqueue.h"
#include "runtime.h"

enum { FLAG_CHILD = 0x2000, FLAG_SYSTEM = EV_SYSFLAGS };
enum { FORKED = 1, EXECED, ENDED, SIGNALLED }; /* kinds of news */

struct queue {
	int fd;
	struct note *first;
	struct queue *after;
};
static struct queue *queues;

static struct queue *queue_of(int fd)
{
	struct queue *queue = queues;
	while (queue != NULL && queue->fd != fd)
		queue = queue->after;
	return queue;
}

static int make_queue(const void *where, int flags)
{
	struct queue *made = calloc(1, sizeof *made);
	tracehost_ask(where, "call %d", SYSCALL_KQUEUE);
	if (made == NULL || (made->fd = eventfd(0, EFD_CLOEXEC | EFD_NONBLOCK)) < 0) {
		free(made);
		return -1;
	}
	(void)flags; /* it is closed by an exec in any case */
	made->after = queues;
	queues = made;
	return made->fd;
}

int tracehost_kqueue(void) { return make_queue(HERE, 0); }
int tracehost_kqueuex(unsigned flags)
{
	if (flags & ~(unsigned)KQUEUE_CLOEXEC) {
		errno = EINVAL;
		return -1;
	}
	return make_queue(HERE, (int)flags);
}

/* ---- notes */

static struct note *find(const struct queue *queue, const struct kevent *event)
{
	struct note *note = queue->first;
	while (note != NULL &&
		   (note->event.ident != event->ident || note->event.filter != event->filter || note->event.flags & FLAG_CHILD))
		note = note->after;
	return note;
}

static int is_watched(short filter, int number)
{
	for (struct queue *queue = queues; queue != NULL; queue = queue->after)
		for (struct note *note = queue->first; note != NULL; note = note->after)
			if (note->event.filter == filter && note->pid == number)
				return 1;
	return 0;
}

static void drop(struct queue *queue, struct note *note)
{
	struct note **place = &queue->first;
	while (*place != NULL && *place != note)
		place = &(*place)->after;
	if (*place == NULL)
		return;
	*place = note->after;
	int number = note->pid, filter = note->event.filter;
	free(note);
	if ((filter == EVFILT_PROC || filter == EVFILT_PROCDESC) && !is_watched(EVFILT_PROC, number) &&
		!is_watched(EVFILT_PROCDESC, number))
		tracehost_ask(NULL, "unwatch %d", number);
	if (filter == EVFILT_SIGNAL && !is_watched(EVFILT_SIGNAL, number))
		tracehost_ask(NULL, "count %d 0", number);
}

static struct note *append(struct queue *queue, const struct kevent *event)
{
	struct note *made = calloc(1, sizeof *made), **last = &queue->first;
	if (made == NULL)
		return NULL;
	made->event = *event;
	made->event.flags &= EV_ONESHOT | EV_CLEAR | EV_DISPATCH;
	made->event.fflags = 0, made->event.data = 0;
	made->wanted = event->fflags, made->given = event->data;
	while (*last != NULL)
		last = &(*last)->after;
	return *last = made;
}

/* ---- changes */

static void touch_user(struct note *note, const struct kevent *change)
{
	unsigned flags = change->fflags & NOTE_FFLAGSMASK;
	switch (change->fflags & NOTE_FFCTRLMASK) {
	case NOTE_FFAND: note->wanted &= flags; break;
	case NOTE_FFOR: note->wanted |= flags; break;
	case NOTE_FFCOPY: note->wanted = flags;
	}
	note->given = change->data;
	note->active |= (change->fflags & NOTE_TRIGGER) != 0;
}

static int add_note(struct queue *queue, const struct kevent *change, struct note **found, long long now)
{
	struct note *note = append(queue, change);
	if (note == NULL)
		return ENOMEM;
	int error = tracehost_attach(note, now);
	if (error != 0) {
		note->pid = 0;
		drop(queue, note);
		return error;
	}
	if (note->event.filter == EVFILT_USER) {
		note->wanted = 0;
		touch_user(note, change);
	}
	*found = note;
	return 0;
}

static int modify(struct note *note, const struct kevent *change, long long now)
{
	if (!(change->flags & EV_KEEPUDATA))
		note->event.udata = change->udata;
	if (note->event.filter == EVFILT_USER) {
		touch_user(note, change);
		return 0;
	}
	if (!(change->flags & EV_ADD))
		return 0;
	note->wanted = change->fflags, note->given = change->data;
	if (note->event.filter == EVFILT_TIMER)
		return tracehost_set_timer(note, now);
	if ((note->event.filter == EVFILT_PROC || note->event.filter == EVFILT_PROCDESC) && !note->gone)
		return tracehost_watch_process(note, note->pid);
	return 0;
}

static int change_one(struct queue *queue, const struct kevent *change, long long now)
{
	struct note *note = find(queue, change);
	int error = 0;
	if (note == NULL && !(change->flags & EV_ADD))
		return ENOENT;
	if (note != NULL && change->flags & EV_DELETE) {
		drop(queue, note);
		return 0;
	}
	error = note == NULL ? add_note(queue, change, &note, now) : modify(note, change, now);
	if (error != 0)
		return error;
	if (change->flags & EV_FORCEONESHOT)
		note->event.flags |= EV_ONESHOT, note->active = 1;
	if (change->flags & EV_DISABLE)
		note->disabled = 1;
	else if (change->flags & (EV_ENABLE | EV_ADD))
		note->disabled = 0;
	return 0;
}

/* ---- news of the broker */

static void track(struct queue *queue, struct note *parent, int child)
{
	struct kevent event = parent->event;
	event.ident = (uintptr_t)child, event.fflags = parent->wanted, event.data = 0;
	struct note *first = append(queue, &event), *other = append(queue, &event);
	if (first == NULL || other == NULL)
		return;
	first->event.flags |= FLAG_CHILD | EV_ONESHOT | EV_CLEAR, other->event.flags |= EV_CLEAR;
	first->event.fflags = NOTE_CHILD, first->event.data = (int64_t)parent->event.ident, first->active = first->gone = 1;
	first->pid = other->pid = child;
}

static void hear_of(struct queue *queue, struct note *note, int kind, int first, int second)
{
	if (kind == FORKED) {
		if (note->wanted & NOTE_TRACK && second)
			track(queue, note, first);
		note->event.fflags |= note->wanted & NOTE_FORK;
	} else if (kind == EXECED)
		note->event.fflags |= note->wanted & NOTE_EXEC;
	else
		tracehost_end(note, first);
	note->active |= (note->event.fflags & NOTE_PCTRLMASK) != 0;
}

static void hear(int kind, int number, int first, int second)
{
	for (struct queue *queue = queues; queue != NULL; queue = queue->after)
		for (struct note *note = queue->first, *after; note != NULL; note = after) {
			after = note->after;
			if (kind == SIGNALLED && note->event.filter == EVFILT_SIGNAL && note->pid == number)
				note->event.data += first, note->active = 1;
			else if (kind != SIGNALLED && !note->gone && note->pid == number &&
					 (note->event.filter == EVFILT_PROC || note->event.filter == EVFILT_PROCDESC))
				hear_of(queue, note, kind, first, second);
		}
	if (kind == ENDED)
		tracehost_described_end(number);
}

/* Asks for all news: the time. */
static long long hear_all(const void *where)
{
	long long now;
	int more;
	do {
		tracehost_ask(where, "news");
		now = tracehost_number(), more = (int)tracehost_number();
		for (int count = (int)tracehost_number(); count > 0; count--) {
			int kind = (int)tracehost_number(), number = (int)tracehost_number(), first = (int)tracehost_number();
			hear(kind, number, first, (int)tracehost_number());
		}
	} while (more);
	return now;
}

/* ---- a look */

static void look_at_all(struct queue *queue, long long now)
{
	for (struct note *note = queue->first; note != NULL; note = note->after)
		if (note->event.filter == EVFILT_READ || note->event.filter == EVFILT_WRITE)
			tracehost_look_at_descriptor(note);
		else if (note->event.filter == EVFILT_TIMER)
			tracehost_look_at_timer(note, now);
}

/* ---- kevent(2) */

/* The next report begins with the others. */
static void move_to_end(struct queue *queue, struct note *note)
{
	struct note **place = &queue->first;
	while (*place != note)
		place = &(*place)->after;
	*place = note->after;
	while (*place != NULL)
		place = &(*place)->after;
	*place = note;
	note->after = NULL;
}

/* An event as it is reported; what that does to its note. */
static void report(struct queue *queue, struct note *note, struct kevent *to)
{
	*to = note->event;
	to->flags &= (unsigned short)~FLAG_CHILD;
	if (note->event.filter == EVFILT_USER)
		to->fflags = note->wanted, to->data = note->given;
	if (note->event.filter == EVFILT_READ || note->event.filter == EVFILT_WRITE)
		note->seen = note->event.data;
	if (note->event.flags & EV_ONESHOT) {
		drop(queue, note);
		return;
	}
	if (note->event.flags & EV_CLEAR) {
		note->active = 0;
		note->event.data = 0, note->event.fflags = 0;
		if (note->event.filter == EVFILT_USER)
			note->wanted = 0, note->given = 0;
	}
	if (note->event.flags & EV_DISPATCH)
		note->disabled = 1;
	move_to_end(queue, note);
}

static int collect(struct queue *queue, struct kevent *to, int room)
{
	int count = 0;
	struct note *last = queue->first, *note = queue->first, *after;
	while (last != NULL && last->after != NULL)
		last = last->after;
	for (int more = note != NULL; more && count < room; note = after) {
		after = note->after, more = note != last;
		int is_process = note->event.filter == EVFILT_PROC || note->event.filter == EVFILT_PROCDESC;
		if (note->active && is_process && note->event.fflags == 0)
			drop(queue, note); /* it has ended, which nobody wants to know */
		else if (note->active && !note->disabled)
			report(queue, note, &to[count++]);
	}
	return count;
}

/* The changes: how many errors and receipts they have put into `to`, or -1. */
static int apply(struct queue *queue, const struct kevent *changes, int count, struct kevent *to, int room, long long now)
{
	int put = 0;
	for (int i = 0; i < count; i++) {
		int error = change_one(queue, &changes[i], now);
		if (error == 0 && !(changes[i].flags & EV_RECEIPT))
			continue;
		if (put == room) {
			errno = error;
			return error == 0 ? put : -1;
		}
		to[put] = changes[i];
		to[put].flags = EV_ERROR, to[put].data = error;
		put++;
	}
	return put;
}

/* When to look again, whoever comes: the caller's time is over, or a timer rings. */
static long long next_time(const struct queue *queue, long long until)
{
	for (const struct note *note = queue->first; note != NULL; note = note->after)
		if (note->event.filter == EVFILT_TIMER && note->next >= 0 && !note->disabled && (until < 0 || note->next < until))
			until = note->next;
	return until;
}

static int await(const void *where, int fd, struct kevent *to, int room, long long now, long long until)
{
	struct queue *queue;
	while ((queue = queue_of(fd)) != NULL) {
		look_at_all(queue, now);
		int count = collect(queue, to, room);
		if (count > 0 || room == 0 || (until >= 0 && now >= until))
			return count;
		if (tracehost_ask(where, "again kevent %d %lld", fd, next_time(queue, until)) != 0)
			return -2; /* out of the call already */
		now = hear_all(where);
	}
	errno = EBADF;
	return -1;
}

int tracehost_kevent(int fd, const struct kevent *changes, int count, struct kevent *to, int room, const struct timespec *timeout)
{
	struct queue *queue = queue_of(fd);
	if (queue == NULL || (timeout != NULL && (timeout->tv_sec < 0 || tracehost_no_time(timeout)))) {
		ask("call %d", SYSCALL_KEVENT);
		errno = queue == NULL ? EBADF : EINVAL;
		return -1;
	}
	ask("enter %d kevent %d", SYSCALL_KEVENT, fd);
	long long now = hear_all(HERE), until = -1;
	if (timeout != NULL)
		until = now + timeout->tv_sec * 1000000000LL + timeout->tv_nsec;
	int got = apply(queue, changes, count, to, room, now);
	if (got == 0)
		got = await(HERE, fd, to, room, hear_all(HERE), until);
	if (got == -2)
		return -1;
	int saved = errno;
	ask("leave");
	errno = saved;
	return got;
}

/* ---- what others need */

/* Before a look of poll(2) or select(2): a kqueue can be read if an event is to be reported. */
void tracehost_refresh_kqueues(const void *where)
{
	if (queues == NULL && !tracehost_has_descriptors())
		return;
	long long now = hear_all(where);
	for (struct queue *queue = queues; queue != NULL; queue = queue->after) {
		uint64_t one = 1, old;
		int ready = 0;
		look_at_all(queue, now);
		for (struct note *note = queue->first; note != NULL; note = note->after)
			ready |= note->active && !note->disabled;
		if ((ready ? write(queue->fd, &one, sizeof one) : read(queue->fd, &old, sizeof old)) < 0)
			continue; /* it is as it should be */
	}
}

static void forget_queue(int fd)
{
	for (struct queue **place = &queues, *queue; (queue = *place) != NULL; place = &queue->after)
		if (queue->fd == fd) {
			while (queue->first != NULL)
				drop(queue, queue->first);
			*place = queue->after;
			free(queue);
			return;
		}
}

/* The descriptor is closed: no kqueue watches it any more. */
void tracehost_forget_descriptor(int fd)
{
	if (queues == NULL && !tracehost_has_descriptors())
		return;
	for (struct queue *queue = queues; queue != NULL; queue = queue->after)
		for (struct note *note = queue->first, *after; note != NULL; note = after) {
			int filter = note->event.filter;
			after = note->after;
			if ((int)note->event.ident == fd && (filter == EVFILT_READ || filter == EVFILT_WRITE || filter == EVFILT_PROCDESC))
				drop(queue, note);
		}
	forget_queue(fd);
	tracehost_close_described(fd);
}

/* In a fork's child: kqueues are its parent's. */
void tracehost_no_kqueues(void)
{
	for (struct queue *queue = queues, *after; queue != NULL; queue = after) {
		for (struct note *note = queue->first, *next; note != NULL; note = next) {
			next = note->after;
			free(note);
		}
		after = queue->after;
		close(queue->fd);
		free(queue);
	}
	queues = NULL;
}
