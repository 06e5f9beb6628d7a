/* wait4, and the calls that wait for another thread's doing: pipes, locks. */
#include <errno.h>
#include "calls.h"

enum { ECHILD_ = 10 };
enum { OPTIONS = TRACEHOST_WNOHANG | TRACEHOST_WUNTRACED | TRACEHOST_WCONTINUED };

/* Whether there are children that have no process descriptor. */
static bool has_others(const struct process *p)
{
	for (EACH_PROCESS(child)) {
		const struct process *child = table.processes.at[child_at];
		if ((child->parent == p->pid || child->tracer == p->pid) && !hides(p, child->pid))
			return true;
	}
	for (size_t i = 0; i < table.news.count; i++) {
		const struct news *news = &table.news.at[i];
		if ((news->to == p->pid || news->heir == p->pid) && !hides(p, news->pid))
			return true;
	}
	return false;
}

/* The choice of the schedule: a child's number, or 0 for the lowest. */
static int first_of(struct lwp *l, const int *children, int count)
{
	char then[64];
	touch_all();
	l->points++;
	run.choices++;
	if (run.wants.made) {
		APPEND(&run.made, REPORTED);
		APPEND(&run.made, count);
		for (int i = 0; i < count; i++)
			APPEND(&run.made, children[i]);
	}
	if (run.wants.points) {
		note("point %d %ld 1 %llu", l->tid, l->points, (unsigned long long)state_of(l->tid));
		for (int i = 1; i < count; i++)
			note(" %d", children[i]);
		note("\n");
	}
	int first = schedule_first_of(children, count, l, l->points);
	leg_chooses(first != 0 ? first : children[0]);
	if (first == 0 || first == children[0])
		return 0;
	APPEND(&run.switches, (struct switch_to){.tid = l->tid, .point = l->points, .to = first});
	snprintf(then, sizeof then, "it reports %d first", first);
	if (run.wants.places)
		note_place("switch", l, then, run.kept.count + 1);
	return first;
}

/* Whether the broker finds who has news, and the model isn't asked. */
static bool looks_itself(const struct process *p, int64_t which)
{
	return names_group(which) || (which == -1 && p->lists.described.count > 0);
}

/* A look. Of several children that have news a wait for any reports the one that the schedule names, or the lowest number. */
static reply taken(struct lwp *l, struct step s, bool stops)
{
	int children[PROCESSES];
	bool of_group = names_group(s.which), any = s.which == -1 || of_group;
	int count = of_group ? reportable_of_group(l, s.which, stops, children) : any ? reportable(l->process, stops, children) : 0;
	int first = count > 1 ? first_of(l, children, count) : 0;
	if (any && looks_itself(l->process, s.which)) {
		bool is_there = of_group ? count == 0 : has_others(l->process);
		if (count <= 0)
			return is_there ? (reply){.kind = TRACEHOST_NOTHING} : (reply){.kind = TRACEHOST_ERROR, .error = ECHILD_};
		first = first != 0 ? first : children[0];
	}
	if (first != 0) {
		struct step of_one = s;
		of_one.which = first;
		reply r = step_of_call(l, of_one, true);
		if (r.kind == TRACEHOST_STATUS)
			return r;
		unkeep();
	}
	return step_of_call(l, s, true);
}

/* A zombie that its tracer has collected is its parent's news. */
static void collected(int pid)
{
	struct process *heir = reported(pid);
	for (size_t i = 0; live_process(pid) == NULL && i < table.processes.count; i++)
		change(table.processes.at[i]->pid);
	if (heir != NULL) {
		count_signal(heir, CHLD);
		nudge(heir, CHLD);
	}
}

/* wait4(2). */
BODY(wait_call)
{
	uint32_t bits = arguments[1];
	struct step s = {.op = WAIT4, .actor = l->process->pid, .a = bits & OPTIONS, .which = arguments[0]};
	reply r;
	if (names_group(arguments[0]))
		use_groups(l, "wait4");
	enter(l, call->code, NULL);
	for (;;) {
		r = taken(l, s, bits & TRACEHOST_WUNTRACED);
		if (r.kind != TRACEHOST_NOTHING || bits & TRACEHOST_WNOHANG)
			break;
		if (!looks_itself(l->process, s.which))
			unkeep();
		if (linger(l, 0, true, NEVER)) {
			say_error(EINTR);
			return;
		}
	}
	if (r.kind == TRACEHOST_STATUS)
		collected(r.pid);
	finish(l);
	if (r.kind == TRACEHOST_ERROR)
		say_reply(&r);
	else
		say("ok %u %u", r.pid, r.status);
}

/* Into a call on descriptors, which the runtime makes in small parts that never wait. */
BODY(enter_only)
{
	(void)call;
	enter(l, code_of(l, arguments[0]), NULL);
	l->polling = NEVER;
	say("ok");
}

/* Out of it again: others may read now, or write. */
BODY(leave_only)
{
	(void)call, (void)arguments;
	change(IO);
	finish(l);
	say("ok");
}

/* In a call on descriptors that aren't ready; the time of a poll(2) begins with its first look. */
static void wait_for_descriptors(struct lwp *l, bool polls, int64_t number)
{
	if (polls && l->polling == NEVER && number >= 0)
		l->polling = later(now(), number);
	int64_t until = l->polling;
	bool interrupted = linger(l, IO, !polls, until);
	bool over = until != NEVER && now() >= until;
	if (interrupted || over)
		l->polling = NEVER;
	if (interrupted)
		say_error(EINTR);
	else
		say("ok %d", over);
}

static void wait_for_lock(struct lwp *l, bool is_semaphore, int64_t end)
{
	not_reported(l, "_umtx_op");
	if (!is_due(l))
		AWAIT(l, end, SYNC, l->process->pid);
	if (is_due(l)) {
		l->process->maybe &= l->mask;
		signals caught = user(l);
		if (is_semaphore && (l->cancelled || interrupts(l->process, caught, true))) {
			say_error(EINTR);
			return;
		}
	} else
		turn(l, act_of(l, TRACEHOST_RAISE, 0), (struct how){0});
	say("ok %d", end != NEVER && now() >= end);
}

/* The thread has looked, and can't go on: `ok 1` if its time is over. */
BODY(again)
{
	int64_t kind = arguments[0], number = arguments[1], end = arguments[2] >= 0 ? arguments[2] : NEVER;
	(void)call;
	if (kind == READ || kind == WRITE || kind == POLL)
		wait_for_descriptors(l, kind == POLL, number);
	else if (kind == KEVENT)
		wait_for_events(l, end);
	else
		wait_for_lock(l, kind == SEMAPHORE, end);
}
