/* Process groups and sessions, which the model doesn't have: the broker keeps them, and makes a call for a group a call for
 * each of its members. The first process leads a group in the session of process 1, as a job of a shell's does. */
#include <errno.h>
#include <stdlib.h>
#include "calls.h"

enum { ECHILD_ = 10, SETPGID = 82, SETSID = 147 };

/* A run says that it uses them; under --strict it ends here. */
void use_groups(struct lwp *l, const char *call)
{
	if (options.strict) {
		blame(l, "");
		failed("refused %d %d %s", l->process->pid, l->tid, call);
	}
	touch_all();
	remark("process groups were used, which the model doesn't have: not proved (--strict: none)");
}

/* ---- setpgid(2), setsid(2), getpgrp(2), getpgid(2), getsid(2) */

static bool is_group_of(int session, int64_t group)
{
	for (EACH_PROCESS(p))
		if (table.processes.at[p_at]->group == group && table.processes.at[p_at]->session == session)
			return true;
	return false;
}

/* sys_setpgid() of sys/kern/kern_prot.c. */
static int set_group_of(struct process *caller, int64_t pid, int64_t group)
{
	struct process *p = pid == 0 ? caller : live_process(pid);
	if (group < 0)
		return EINVAL;
	if (p == NULL || (p != caller && p->parent != caller->pid))
		return ESRCH;
	if (p != caller && p->session != caller->session)
		return EPERM;
	if (p != caller && p->execed)
		return EACCES;
	if (p->session == p->pid)
		return EPERM;
	if (group == 0)
		group = p->pid;
	if (group != p->pid && !is_group_of(caller->session, group))
		return EPERM;
	set_group(p, (int)group);
	change(caller->pid); /* a wait for a group may have another answer now */
	return 0;
}

BODY(setpgid_call)
{
	use_groups(l, "setpgid");
	enter(l, call->code, NULL);
	int error = set_group_of(l->process, int_of(l, arguments[0]), int_of(l, arguments[1]));
	finish(l);
	if (error != 0)
		say_error(error);
	else
		say("ok");
}

BODY(setsid_call)
{
	struct process *p = l->process;
	(void)arguments;
	use_groups(l, "setsid");
	enter(l, call->code, NULL);
	bool leads = p->group == p->pid;
	for (EACH_PROCESS(other))
		leads |= table.processes.at[other_at]->group == p->pid;
	if (!leads) {
		p->session = p->pid;
		set_group(p, p->pid);
	}
	finish(l);
	if (leads)
		say_error(EPERM);
	else
		say("ok %d", p->session);
}

/* The group and the session of a process. */
BODY(group_call)
{
	int64_t pid = arguments[1];
	(void)call;
	touch_all();
	bare_call(l, code_of(l, arguments[0]));
	const struct process *p = pid == 0 ? l->process : live_process(pid);
	if (p != NULL)
		say("ok %d %d", p->group, p->session);
	else if (pid == 1)
		say("ok 1 1");
	else
		say_error(ESRCH);
}

/* ---- orphaned groups: the model has none, so a run says what FreeBSD does otherwise */

/* Whether no member has a parent in another group of its session. The first process has one, a shell; process 1 is none. */
static bool is_orphaned(int group)
{
	for (EACH_PROCESS(p)) {
		const struct process *p = table.processes.at[p_at], *parent = live_process(p->parent);
		if (p->group != group)
			continue;
		if (parent == NULL ? p == run.first : parent->session == p->session && parent->group != group)
			return false;
	}
	return true;
}

void tell_orphan_stop(const struct process *p, int signal)
{
	enum { TSTP = 18, TTIN = 21, TTOU = 22 };
	if ((signal == TSTP || signal == TTIN || signal == TTOU) && !has(p->catches | p->ignored, signal) && is_orphaned(p->group))
		remark("a process of an orphaned group is sent signal %d, which stops it here, and not on FreeBSD", signal);
}

/* A process has ended: its group, and those of its children, may be orphaned since. */
void tell_orphans(void)
{
	for (EACH_PROCESS(p)) {
		const struct process *p = table.processes.at[p_at];
		if (p->stops && p->tracer == 0 && p->group != run.first->group && is_orphaned(p->group))
			remark("a process that was stopped is left in an orphaned group: if it still is, FreeBSD sends SIGHUP and SIGCONT");
	}
}

/* ---- kill(2) of a group */

bool names_group(int64_t which) { return !options.strict && (which == 0 || (which < -1 && which >= INT32_MIN)); }

static int64_t group_named(const struct process *caller, int64_t which) { return which == 0 ? caller->group : -which; }

/* The sender comes last: what it sends may stop it, or end it. */
static size_t members(struct process *caller, int64_t group, struct process *to[PROCESSES])
{
	size_t count = 0;
	for (EACH_PROCESS(p))
		if (table.processes.at[p_at]->group == group && table.processes.at[p_at] != caller)
			to[count++] = table.processes.at[p_at];
	if (caller->group == group)
		to[count++] = caller;
	return count;
}

void kill_group(struct lwp *l, int which, int signal)
{
	struct process *all[PROCESSES];
	reply r = {.kind = TRACEHOST_ERROR, .error = ESRCH};
	use_groups(l, "kill");
	enter(l, 37, NULL);
	if (run.inside)
		others(l);
	size_t count = signal < 0 || signal > 128 ? 0 : members(l->process, group_named(l->process, which), all);
	if (signal < 0 || signal > 128)
		r.error = EINVAL;
	for (size_t i = 0; i < count; i++) {
		struct step s = {.op = SEND, .actor = l->process->pid, .a = signal, .which = all[i]->pid};
		reply one = make(s, true);
		while (one.kind == TRACEHOST_HELD) { /* only before the first one: all are sent at once */
			AWAIT(l, NEVER, -l->process->pid);
			one = make(s, true);
		}
		if (one.kind == TRACEHOST_OK && signal != 0)
			posted(l, &all[i], 1, signal);
		if (i == 0 || one.kind == TRACEHOST_OK)
			r = one;
	}
	finish(l);
	say_reply(&r);
}

/* ---- wait4(2) of a group */

static int by_number(const void *a, const void *b) { return *(const int *)a - *(const int *)b; }

/* The children of the group that have news, by number; -1 if no child is of the group. */
int reportable_of_group(struct lwp *l, int64_t which, bool stops, int pids[PROCESSES])
{
	const struct process *p = l->process;
	const int64_t group = group_named(p, which);
	bool has_child = false;
	int all[PROCESSES], found = 0, count = reportable(p, stops, all);
	for (EACH_PROCESS(child)) {
		const struct process *child = table.processes.at[child_at];
		has_child |= (child->parent == p->pid || child->tracer == p->pid) && child->group == group && !hides(p, child->pid);
	}
	for (size_t i = 0; i < table.news.count; i++) {
		const struct news *news = &table.news.at[i];
		has_child |= (news->to == p->pid || news->heir == p->pid) && group_of(news->pid) == group && !hides(p, news->pid);
	}
	for (int i = 0; i < count; i++)
		if (group_of(all[i]) == group)
			pids[found++] = all[i];
	qsort(pids, (size_t)found, sizeof pids[0], by_number);
	return has_child ? found : -1;
}
