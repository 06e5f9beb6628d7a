/* What kqueue.c and its filters share. */
#ifndef TRACEHOST_KQUEUE_H
#define TRACEHOST_KQUEUE_H

#include <stdint.h>
#include "../include/sys/event.h"

struct note {
	struct kevent event; /* its fflags and data are those to be reported */
	unsigned wanted; /* fflags that were asked for */
	int64_t given; /* data that was given */
	int active, disabled, gone; /* gone: the process has ended */
	long long next, period; /* of a timer */
	int64_t seen; /* under EV_CLEAR: the level that was reported */
	int pid; /* whose descriptor it is */
	struct note *after;
};

/* As a note is made, or changed: 0, or an errno. */
int tracehost_attach(struct note *note, long long now);
int tracehost_watch_process(struct note *note, int pid);
int tracehost_set_timer(struct note *note, long long now);

/* What is told of the end of a process. */
void tracehost_end(struct note *note, int status);

/* Whether a note of a descriptor, or of a timer, is active now. */
void tracehost_look_at_descriptor(struct note *note);
void tracehost_look_at_timer(struct note *note, long long now);

#endif
