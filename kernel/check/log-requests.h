/* The requests of ptrace(2), with what they are given, and what they answer. */
#ifndef LOG_REQUESTS_H
#define LOG_REQUESTS_H

#include "log-words.h"
#include <sys/types.h>

#pragma GCC visibility push(hidden)

void put_request(struct line *line, int number, pid_t pid, const void *addr, long data);

/* The signal of a stop, and what Linux adds: an event, and the mark of a system call's stop. */
void put_stop(struct line *line, int sig, int event);

#ifdef __FreeBSD__
void put_answer(struct line *line, int request, const void *addr, int data, int result);
#else
int is_peek(int request);
void put_answer(struct line *line, int request, const void *data);
#endif

#pragma GCC visibility pop

#endif
