/* What kqueue(2) and process descriptors need: which processes have forked, become another image, or ended; which signals
 * came. Filters and their states are the runtime's, which asks for what has happened since it has asked last. */
#include <errno.h>
#include <stdlib.h>
#include <string.h>
#include "calls.h"

enum { MOST = 200 }; /* happenings of an answer */

static int find_watched(const struct process *p, int64_t pid)
{
	for (size_t i = 0; i < p->lists.watched.count; i++)
		if (p->lists.watched.at[i].pid == pid)
			return i;
	return -1;
}

static void set_watched(struct process *p, int64_t pid, bool tracks)
{
	int place = find_watched(p, pid);
	if (place < 0)
		APPEND(&p->lists.watched, (struct watched){pid, tracks});
	else
		p->lists.watched.at[place].tracks |= tracks;
}

/* Those who watch the process hear of its child, which they watch too if they track it. */
void tell_fork(const struct process *p, const struct process *child)
{
	for (EACH_PROCESS(watcher)) {
		struct process *watcher = table.processes.at[watcher_at];
		int place = find_watched(watcher, p->pid);
		if (place < 0)
			continue;
		bool tracks = watcher->lists.watched.at[place].tracks;
		APPEND(&watcher->lists.happened, (struct happening){FORKED, p->pid, child->pid, tracks});
		change(watcher->pid);
		if (tracks)
			set_watched(watcher, child->pid, true);
	}
}

/* From now on the caller hears of this process, or of its children too. Of a zombie: its status. */
BODY(watch_call)
{
	struct numbers numbers;
	int64_t pid = arguments[0];
	(void)call;
	look((struct step){.op = LIST_PROCESSES, .actor = l->process->pid});
	numbers_of_last(&numbers);
	if (live_process(pid) != NULL) {
		set_watched(l->process, pid, arguments[1]);
		say("ok 0 0");
		return;
	}
	for (size_t i = 0; i < numbers.count; i++)
		if (numbers.at[i] == pid) {
			say("ok 1 %d", table.statuses[pid - FIRST_PROCESS]);
			return;
		}
	say_error(ESRCH);
}

/* No longer. */
BODY(unwatch)
{
	int place = find_watched(l->process, arguments[0]);
	(void)call;
	if (place >= 0)
		TAKE_OUT(&l->process->lists.watched, place);
	say("ok");
}

/* Signals of this number, sent to the caller from now on, are counted; or no longer. */
BODY(count_call)
{
	struct lists *lists = &l->process->lists;
	size_t place = 0;
	(void)call;
	while (place < lists->counts.count && lists->counts.at[place].signal != arguments[0])
		place++;
	if (arguments[1] != 0 && place == lists->counts.count)
		APPEND(&lists->counts, (struct counted){arguments[0], 0});
	else if (arguments[1] == 0 && place < lists->counts.count)
		TAKE_OUT(&lists->counts, place);
	say("ok");
}

/* The time, whether there is more, and what has happened. */
BODY(news_call)
{
	struct lists *lists = &l->process->lists;
	(void)call, (void)arguments;
	for (size_t i = 0; i < lists->counts.count; i++) {
		struct counted *counted = &lists->counts.at[i];
		if (counted->number != 0)
			APPEND(&lists->happened, (struct happening){SIGNALLED, counted->signal, counted->number, 0});
		counted->number = 0;
	}
	size_t told = lists->happened.count < MOST ? lists->happened.count : MOST;
	say("ok %lld %d %zu ", (long long)now(), lists->happened.count > told, told);
	for (size_t i = 0, at = strlen(answer); i < told; i++) {
		const struct happening *h = &lists->happened.at[i];
		at += snprintf(answer + at, sizeof answer - at, "%s%lld %lld %lld %lld", i > 0 ? " " : "", (long long)h->kind,
			(long long)h->number, (long long)h->first, (long long)h->second);
	}
	lists->happened.count -= told;
	if (told > 0)
		memmove(lists->happened.at, lists->happened.at + told, lists->happened.count * sizeof lists->happened.at[0]);
}

/* In kevent(2), and nothing is active: no signal restarts it. */
void wait_for_events(struct lwp *l, int64_t end)
{
	if (linger(l, IO, false, end))
		say_error(EINTR);
	else
		say("ok 0");
}

/* ---- process descriptors */

int find_described(const struct process *p, int64_t pid)
{
	for (size_t i = 0; i < p->lists.described.count; i++)
		if (p->lists.described.at[i].pid == pid)
			return i;
	return -1;
}

static struct step killing(int caller, int pid) { return (struct step){.op = SEND, .actor = caller, .a = KILL, .which = pid}; }

/* The descriptor is closed: a process that is no daemon is killed, and the zombie is collected. */
BODY(undescribed)
{
	struct process *p = l->process, *child = live_process(arguments[0]);
	int pid = arguments[0], place = find_described(p, arguments[0]);
	(void)call;
	if (place < 0)
		foreign_question(l);
	if (child != NULL && !p->lists.described.at[place].daemon && step_of_call(l, killing(p->pid, pid), true).kind == TRACEHOST_OK)
		reap(&child, 1, KILL);
	if (live_process(pid) == NULL) {
		place = find_described(p, pid);
		if (place >= 0)
			TAKE_OUT(&p->lists.described, place);
		if (step_of_call(l, (struct step){.op = WAIT4, .actor = p->pid, .which = pid}, true).kind != TRACEHOST_STATUS)
			unkeep();
		reported(pid);
	}
	say("ok");
}

/* The process has ended, and its descriptors are closed: a child with one is killed, unless it is a daemon. */
void close_all_described(struct process *p)
{
	LIST(struct process *) children = {0};
	for (size_t i = 0; i < p->lists.described.count; i++) {
		struct process *child = live_process(p->lists.described.at[i].pid);
		if (child != NULL && !p->lists.described.at[i].daemon)
			APPEND(&children, child);
	}
	for (size_t i = 0; i < children.count; i++)
		if (make(killing(children.at[i]->pid, children.at[i]->pid), true).kind == TRACEHOST_OK)
			reap(&children.at[i], 1, KILL);
	free(children.at);
}
