/* Processes and threads: fork, exec, threads, ends. */
#include <errno.h>
#include <string.h>
#include "calls.h"

enum { COMPUTED = 50000000, SPUN = 5000000 }; /* nanoseconds that a thread has computed that asks `poke`, or spun */

/* A new thread, process or image: it goes on once it may run. An image learns which signals it ignores. One that is in a
 * call, and traced, asks again as that returns. */
BODY(hello)
{
	struct process *p = l->process;
	(void)call;
	l->lands = arguments[3] && lands(l);
	if (!l->lands)
		user(l);
	while (p->n_put_back > 0) {
		struct put_back last = p->put_back[--p->n_put_back];
		dispose(l, last.signal, last.action, NULL);
	}
	say("ok %d %d %u", p->pid, l->tid, p->ignored);
}

/* Into the call and out of it. If there is no room the model keeps the LWP in the call: until a process ends. */
static reply made(struct lwp *l, int call)
{
	enter_call(l, call, 0, NULL);
	for (;;) {
		reply r = leave(l);
		touch_all();
		if (r.kind != TRACEHOST_ERROR)
			return r;
		AWAIT(l, NEVER, IO);
	}
}

/* A stop at the call's exit doesn't report the number of what it has made, so that it is counted along. */
static int number_of(int counted, const reply *r, uint32_t number)
{
	if (r->kind == TRACEHOST_NEW && (int)number != counted)
		broken("number %u %d", number, counted);
	return counted;
}

static size_t all_of_user(const struct process *p, struct numbers *numbers)
{
	look((struct step){.op = LIST_PROCESSES, .actor = p->pid});
	numbers_of_last(numbers);
	return numbers->count;
}

/* A fork, or a new thread, beyond the user's limits fails with EAGAIN; `most`: RLIMIT_NPROC, or 0. */
static bool has_no_room(struct lwp *l, int code, bool forks, int64_t most)
{
	struct numbers numbers;
	size_t lwps = 0;
	for (EACH_PROCESS(p))
		lwps += table.processes.at[p_at]->lists.lwps.count;
	bool full = lwps >= TRACEHOST_MAX_LWPS;
	if (most <= 0 || most > TRACEHOST_MAX_PROCESSES)
		most = TRACEHOST_MAX_PROCESSES;
	if (forks && table.made >= most) /* zombies count */
		full = full || all_of_user(l->process, &numbers) >= (size_t)most;
	if (!full)
		return false;
	bare_call(l, code);
	say_error(EAGAIN);
	return true;
}

/* Which numbers of processes are free, once it matters. */
static bool find_in_use(const struct process *p, bool in_use[PROCESSES])
{
	struct numbers numbers;
	if (!numbers_have_wrapped())
		return false;
	memset(in_use, 0, PROCESSES * sizeof in_use[0]);
	all_of_user(p, &numbers);
	for (size_t i = 0; i < numbers.count; i++)
		if (numbers.at[i] >= FIRST_PROCESS && numbers.at[i] < FIRST_PROCESS + PROCESSES)
			in_use[numbers.at[i] - FIRST_PROCESS] = true;
	return true;
}

static void inherit(struct process *child, const struct process *p)
{
	child->session = p->session;
	set_group(child, p->group);
	child->catches = p->catches, child->ignored = p->ignored, child->filters = p->filters;
	memcpy(child->caught, p->caught, sizeof child->caught);
	for (int i = 0; i < p->n_awaited; i++)
		child->put_back[child->n_put_back++] = (struct put_back){p->awaited[i].signal, p->awaited[i].action};
}

/* The child's number, or 0. */
static int fork_of(struct lwp *l, const struct call *call, int kind, int64_t most)
{
	struct process *p = l->process;
	if (has_no_room(l, call->code, true, most))
		return 0;
	bool in_use[PROCESSES], matters = find_in_use(p, in_use);
	reply r = made(l, kind);
	struct process *child = new_process(number_of(number_process(matters ? in_use : NULL), &r, r.pid), p->pid);
	inherit(child, p);
	struct lwp *born = new_lwp(child, number_of(number_lwp(), &r, r.lwp), l->mask);
	child->vforked = kind == TRACEHOST_VFORK;
	if (r.kind == TRACEHOST_STOPPED && r.flags & TRACEHOST_PL_FLAG_FORKED) {
		child->tracer = p->tracer, child->reporting = born, child->reports = p->reports;
		child_news(child, BSD_CLD_TRAPPED, STOP);
	}
	tell_fork(p, child);
	l->bears = born;
	l->lands = lands(l);
	say("ok %d %d", child->pid, born->tid);
	return child->pid;
}

/* fork(2): the child is a process of the host once the answer is there. */
BODY(fork_call) { fork_of(l, call, TRACEHOST_FORK, arguments[0]); }

/* vfork(2): the maker's next turn comes after the child's exec or end. */
BODY(vfork_call) { fork_of(l, call, TRACEHOST_VFORK, arguments[0]); }

/* pdfork(2): waits for any child don't report this one, and its end sends no SIGCHLD; a daemon outlives its descriptor. */
BODY(pdfork_call)
{
	struct process *p = l->process;
	int pid = fork_of(l, call, TRACEHOST_FORK, arguments[1]), known = find_described(p, pid);
	if (pid == 0)
		return;
	if (known >= 0)
		p->lists.described.at[known].daemon = arguments[0];
	else
		APPEND(&p->lists.described, (struct described){pid, arguments[0]});
}

/* pthread_create(3). */
BODY(thr_new)
{
	(void)arguments;
	if (has_no_room(l, call->code, false, 0))
		return;
	reply r = made(l, TRACEHOST_THR_NEW);
	l->bears = new_lwp(l->process, number_of(number_lwp(), &r, r.lwp), l->mask);
	l->lands = lands(l);
	say("ok %d %d", l->process->pid, l->bears->tid);
}

/* The end of a thread; under PTRACE_LWP it stops first, and is gone when its process goes on. */
BODY(thr_exit)
{
	(void)call, (void)arguments;
	reply r = made(l, TRACEHOST_THR_EXIT);
	while (r.kind == TRACEHOST_STOPPED) {
		AWAIT(l, NEVER, -l->process->pid);
		if (make(act_of(l, TRACEHOST_COMPUTE, 0), false).kind == TRACEHOST_ERROR)
			break;
		touch_all();
	}
	l->leaves = true;
	say("ok");
}

static void forget_timers(const struct process *p)
{
	for (size_t i = table.lwps.count; i-- > 0;) {
		struct lwp *timer = table.lwps.at[i];
		if (timer->process == p && timer->is_timer && timer->number != 0) { /* of timer_create(2) */
			out_of_table(timer);
			retire(timer);
		}
	}
}

/* execve(2) of a file that is there: the other threads are gone. */
BODY(exec_image)
{
	struct process *p = l->process;
	(void)call, (void)arguments;
	made(l, TRACEHOST_EXEC);
	for (size_t i = 0; i < p->lists.lwps.count;)
		if (p->lists.lwps.at[i] != l)
			replace_lwp(p->lists.lwps.at[i]);
		else
			i++;
	p->execed = true;
	p->catches = 0;
	p->n_awaited = 0;
	p->lists.watched.count = p->lists.counts.count = p->lists.happened.count = 0;
	happen(EXECED, p->pid, 0);
	forget_timers(p);
	l->passed = 0, l->injected.count = 0, l->lost = false;
	release_parent(p);
	l->born = true;
	say("ok");
}

/* The exec was of a program without the runtime, which runs as one computation. */
BODY(foreign)
{
	(void)call;
	l->born = false;
	l->foreign = true;
	l->held = arguments[0], l->reader = arguments[1];
	not_reported(l, "those of a program without the runtime");
	user(l);
	say("ok");
}

/* _exit(2). */
BODY(exit_process)
{
	(void)call;
	if (arguments[0] < 0 || arguments[0] > 255)
		foreign_question(l);
	l->foreign = false;
	enter_call(l, TRACEHOST_EXIT, arguments[0], NULL);
	l->process->told = arguments[0];
	ended(l, leave(l).status);
}

/* The second half of a fork: the child is there. */
BODY(user_call)
{
	(void)call, (void)arguments;
	user(l);
	say("ok");
}

/* pthread_cancel(3): the LWP is woken, if it waits. */
BODY(cancel)
{
	struct process *p = l->process;
	for (size_t i = 0; i < p->lists.lwps.count; i++)
		p->lists.lwps.at[i]->cancelled |= p->lists.lwps.at[i]->tid == arguments[0];
	change(p->pid);
	point(l, call, arguments);
}

/* A thread that computes for long, or is asleep in a call of the host's: others go on, and signals are met. */
BODY(poke)
{
	bool asleep = arguments[0] == ASLEEP_IN_HOST;
	int pid = l->process->pid;
	(void)call;
	l->yields = true;
	if (!asleep)
		table.now = later(now(), arguments[0] == SPINS ? SPUN : COMPUTED);
	others(l);
	if (asleep && !is_due(l) && !l->awaits) {
		l->hosted = true;
		AWAIT(l, NEVER, SYNC, IO, pid, -pid);
		l->hosted = false;
	}
	while (l->awaits && !is_due(l) && still_awaits(l))
		AWAIT(l, NEVER, pid, -pid);
	l->awaits = false;
	if (!l->begun)
		user(l);
	say("ok");
}

/* What a thread that computes for long comes to, at once; it doesn't hang, however often it asks. */
BODY(compute)
{
	(void)call, (void)arguments;
	l->yields = true;
	l->ran = run.steps; /* its computation is no step that is kept, but others have their turn all the same */
	others(l);
	user(l);
	say("ok");
}

/* No call of the system, but others may go on here. */
BODY(point)
{
	(void)call, (void)arguments;
	change(SYNC);
	others(l);
	stay(l);
	say("ok");
}

void bare_call(struct lwp *l, int code)
{
	enter(l, code, NULL);
	finish(l);
}

/* A call that never waits. */
BODY(simple)
{
	bare_call(l, call->code != 0 ? call->code : (int)arguments[0]);
	if (call->wakes & FILES)
		change(IO);
	say("ok");
}

/* sched_yield(2): others go on, if any can. */
BODY(sched_yield_call)
{
	l->yields = true;
	others(l);
	simple(l, call, arguments);
}

BODY(getppid_call)
{
	simple(l, call, arguments);
	say("ok %d", l->process->parent);
}

static bool has_lwp(const struct process *p, int64_t tid)
{
	for (size_t i = 0; i < p->lists.lwps.count; i++)
		if (p->lists.lwps.at[i]->tid == tid)
			return true;
	return false;
}

/* pthread_join(3), or pthread_timedjoin_np(3). */
BODY(join)
{
	int64_t tid = arguments[0], end = arguments[1] >= 0 ? arguments[1] : NEVER;
	int error = 0;
	enter(l, call->code, NULL);
	while (has_lwp(l->process, tid)) {
		if (end != NEVER && now() >= end) {
			error = ETIMEDOUT;
			break;
		}
		linger(l, tid, true, end);
		if (l->cancelled) {
			say_error(EINTR);
			return;
		}
		if (l->entered < 0)
			enter(l, call->code, NULL);
	}
	finish(l);
	if (error != 0)
		say_error(error);
	else
		say("ok");
}

/* What <sys/proc.h> has: of a process, and of a thread. */
static int stat_of(const tracehost_process *row)
{
	enum { RUNS = 2, STOPPED = 4, ENDED = 5 };
	return row->state == 0 ? RUNS : row->state == 3 ? ENDED : STOPPED;
}

static int stat_of_lwp(const tracehost_process *process, const tracehost_lwp *row)
{
	enum { SLEEPS = 3, IN_VFORK = 2 };
	return process->state == 0 && (row->suspended || row->mode == IN_VFORK) ? SLEEPS : stat_of(process);
}

static int flags_of(const tracehost_process *row)
{
	static const int flags[] = {0, 0x40000, 0x20000, 0};
	return flags[row->state & 3];
}

/* sysctl(3) kern.proc.pid: a process, and one of its threads by its place. */
BODY(stat_call)
{
	struct numbers numbers = {0};
	tracehost_process row;
	tracehost_lwp thread;
	bare_call(l, call->code);
	reply r = step_of_call(l, (struct step){.op = LIST_PROCESSES, .actor = l->process->pid}, false);
	if (r.kind == TRACEHOST_PIDS)
		numbers_of_last(&numbers);
	bool is_there = false;
	for (size_t i = 0; i < numbers.count; i++)
		is_there |= numbers.at[i] == arguments[0];
	const struct process *p = live_process(arguments[0]);
	size_t count = p != NULL ? p->lists.lwps.count : 0, place = (size_t)arguments[1];
	int tid = place < count ? p->lists.lwps.at[place]->tid : 0;
	if (!is_there || !rows_of((int)arguments[0], tid, &row, &thread))
		say_error(ESRCH);
	else
		say("ok %d %u %u %zu %d %d %d %u %u %u %d %u %u %d %d", stat_of(&row), row.parent, row.tracer, count,
			p != NULL ? p->real : 0, tid, flags_of(&row), row.pending << 1, p != NULL ? p->ignored : 0, p != NULL ? p->catches : 0,
			stat_of_lwp(&row, &thread), thread.blocked << 1, thread.pending << 1, p != NULL ? p->group : group_of(arguments[0]),
			p != NULL ? p->session : 0);
}
