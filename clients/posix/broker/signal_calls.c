/* Signals: kill, dispositions, masks, and waiting for signals. Time is in timer_calls.c. */
#include <errno.h>
#include <string.h>
#include "calls.h"

static const signals every_signal = ~(signals)1;

/* ---- sending */

/* What a signal changes for those it was posted to. */
void posted(struct lwp *l, struct process *const *targets, size_t count, int signal)
{
	for (size_t i = 0; i < count; i++) {
		struct process *p = targets[i];
		send_info(p, (struct info){.signal = signal, .code = BSD_SI_USER, .sender = l->process->pid});
		tell_orphan_stop(p, signal);
		count_signal(p, signal);
		nudge(p, signal);
		if (signal == CONT) {
			change(-p->pid);
			child_news(p, BSD_CLD_CONTINUED, CONT);
		}
	}
	if (signal == KILL)
		reap(targets, count, KILL);
}

/* kill(2). */
BODY(kill_call)
{
	struct process *targets[PROCESSES];
	int which = int_of(l, arguments[0]), signal = int_of(l, arguments[1]);
	size_t count = 0;
	if (names_group(which)) {
		kill_group(l, which, signal);
		return;
	}
	enter(l, call->code, NULL);
	reply r = step_of_call(l, (struct step){.op = SEND, .actor = l->process->pid, .a = signal, .which = which}, true);
	for (EACH_PROCESS(p)) {
		struct process *p = table.processes.at[p_at];
		if (p->pid == which || (which == -1 && p != l->process))
			targets[count++] = p;
	}
	if (r.kind == TRACEHOST_OK && signal != 0)
		posted(l, targets, count, signal);
	finish(l);
	say_reply(&r);
}

static struct lwp *lwp_of_process(const struct process *p, int64_t tid)
{
	for (size_t i = 0; i < p->lists.lwps.count; i++)
		if (p->lists.lwps.at[i]->tid == tid)
			return p->lists.lwps.at[i];
	return NULL;
}

int send_to_lwp(struct lwp *l, int64_t tid, int64_t signal)
{
	struct process *p = l->process;
	struct lwp *other = lwp_of_process(p, tid);
	struct info info = {.signal = signal, .code = BSD_SI_LWP, .sender = p->pid};
	if (signal < 0 || signal > 31)
		return EINVAL;
	if (signal == 0)
		return 0;
	if (other == NULL)
		return ESRCH;
	send_info_to_lwp(other, info);
	if (other != l || lands(l))
		APPEND(&other->injected, signal); /* an LWP that lands meets it after its call has returned */
	else
		turn(l, act_of(l, TRACEHOST_RAISE, signal), (struct how){0});
	if (other != l)
		change(p->pid);
	return 0;
}

/* raise(3), pthread_kill(3). */
BODY(thr_kill)
{
	struct process *p = l->process;
	int64_t tid = arguments[0], signal = arguments[1];
	p->chld_due |= signal == CHLD && p->catches & BIT(CHLD);
	enter(l, call->code, NULL);
	leave(l);
	if (signal != 0 && lwp_of_process(p, tid) != NULL)
		count_signal(p, signal);
	int error = send_to_lwp(l, tid, signal);
	back(l);
	if (error != 0)
		say_error(error);
	else
		say("ok");
}

/* An instruction was made, of an LWP that its debugger makes step. */
BODY(trace_call)
{
	(void)call;
	send_info_to_lwp(l, (struct info){.signal = TRAP, .code = BSD_TRAP_TRACE, .address = arguments[0]});
	stepped(l);
	l->has_sent &= ~BIT(TRAP);
	user(l);
	say("ok");
}

/* A trap in user mode, where the process ran: nothing comes between it and its signal. */
BODY(fault_call)
{
	(void)call;
	if (l->begun) /* an address of its arguments */
		leave(l);
	l->begun = false;
	send_info_to_lwp(l, (struct info){.signal = arguments[0], .code = arguments[1], .address = arguments[2]});
	turn(l, act_of(l, TRACEHOST_RAISE, arguments[0]), (struct how){.at_once = true});
	user(l);
	say("ok");
}

/* ---- dispositions and masks */

static void forget_awaited(struct process *p, int place)
{
	memmove(&p->awaited[place], &p->awaited[place + 1], (--p->n_awaited - place) * sizeof p->awaited[0]);
}

static int find_awaited(const struct process *p, int signal)
{
	for (int i = 0; i < p->n_awaited; i++)
		if (p->awaited[i].signal == signal)
			return i;
	return -1;
}

/* sigaction(2) with a new action. */
BODY(action)
{
	struct process *p = l->process;
	int64_t signal = arguments[0], how = arguments[1], flags = arguments[3];
	const struct caught caught = {arguments[2], flags & 1, flags & 2, (signals)arguments[4] & every_signal};
	if (how < 0 || how > 2)
		foreign_question(l);
	enter(l, call->code, NULL);
	int place = find_awaited(p, signal);
	if (place >= 0)
		forget_awaited(p, place); /* what a sigwait(2) would put back is gone */
	reply r = dispose(l, signal, how, how == TRACEHOST_CATCH ? &caught : NULL);
	finish(l);
	say_reply(&r);
}

/* sigprocmask(2); the first argument is 0 if nothing is set. */
BODY(mask_call)
{
	signals old = l->mask, given = (signals)arguments[1] & every_signal;
	const signals to[] = {old, old | given, old & ~given, given};
	enter(l, call->code, NULL);
	leave(l);
	block(l, to[arguments[0] & 3] & ~UNBLOCKABLE);
	back(l);
	say("ok %u", old);
}

/* The mask while a call waits; signals that it lets through are met. */
static void mask_for_call(struct lwp *l, int64_t bits, struct met *met)
{
	signals set = (signals)bits & every_signal & ~UNBLOCKABLE;
	turn(l, act_of(l, TRACEHOST_BLOCK, set >> 1), (struct how){.met = met});
	l->mask = set;
}

/* ---- waiting */

/* sigsuspend(2). */
BODY(suspend)
{
	signals old = l->mask;
	struct met met = {0};
	mask_for_call(l, arguments[0], &met);
	enter(l, call->code, &met);
	if (met.all != 0)
		leave(l);
	else
		while (!linger(l, 0, false, NEVER))
			;
	block(l, old);
	back(l);
	say_error(EINTR);
}

/* Into ppoll(2) or pselect(2), under another mask until `restore`. */
BODY(masked)
{
	struct met met = {0};
	l->former = l->mask, l->polling = NEVER;
	mask_for_call(l, arguments[1], &met);
	enter(l, code_of(l, arguments[0]), &met);
	if (met.all == 0) {
		say("ok");
		return;
	}
	restore(l, call, arguments);
	say_error(EINTR);
}

/* Out of it, if the LWP is still there, and back to the mask of before. */
BODY(restore)
{
	(void)call, (void)arguments;
	if (l->entered >= 0)
		leave(l);
	block(l, l->former);
	back(l);
	say("ok");
}

/* pause(3). */
BODY(pause_call)
{
	(void)arguments;
	enter(l, call->code, NULL);
	while (!linger(l, 0, false, NEVER))
		;
	say_error(EINTR);
}

/* The place of the signal, which is caught now; -1 if the program has a handler. Nobody of the process goes on meanwhile: two
 * LWPs that begin to wait see the same. */
static int catch_awaited(struct lwp *l, int number)
{
	static const struct caught plain;
	struct process *p = l->process;
	for (;;) {
		int place = find_awaited(p, number);
		if (place >= 0 || p->catches & BIT(number))
			return place;
		uint32_t action = p->ignored & BIT(number) ? TRACEHOST_IGNORE : TRACEHOST_DEFAULT;
		if (dispose_at_once(l, number, TRACEHOST_CATCH, &plain))
			p->awaited[p->n_awaited++] = (struct awaited){.signal = number, .action = action};
		else
			AWAIT(l, NEVER, -p->pid);
	}
}

/* From now on the LWP takes these signals: those without a handler are caught, as long as any LWP waits for them. */
static void accept_signals(struct lwp *l, signals wanted)
{
	l->accepting = wanted;
	for (EACH_SIGNAL(number)) {
		int place = wanted & BIT(number) ? catch_awaited(l, number) : -1;
		if (place >= 0)
			l->process->awaited[place].count++;
	}
}

/* No longer: the last one puts their actions back. */
static void accept_no_longer(struct lwp *l, signals wanted)
{
	struct process *p = l->process;
	signals awaited = 0;
	l->accepting = 0;
	for (int i = 0; i < p->n_awaited; i++)
		awaited |= BIT(p->awaited[i].signal);
	for (EACH_SIGNAL(number)) {
		if (!(wanted & awaited & BIT(number)))
			continue;
		int place = find_awaited(p, number);
		if (place >= 0)
			p->awaited[place].count--;
		while (place >= 0 && p->awaited[place].count == 0) {
			if (dispose_at_once(l, number, p->awaited[place].action, NULL))
				forget_awaited(p, place);
			else
				AWAIT(l, NEVER, -p->pid);
			place = find_awaited(p, number);
		}
	}
}

/* Waits for a signal that the LWP accepts: its number, or an errno by its negative. */
static int first_accepted(struct lwp *l, int64_t until, struct info *info)
{
	int pid = l->process->pid;
	for (;;) {
		struct met met = {0};
		user_met(l, &met);
		*info = met.info;
		if (met.accepted != 0)
			return met.accepted;
		if (met.all != 0 || l->cancelled)
			return -EINTR;
		if (until != NEVER && now() >= until)
			return -EAGAIN;
		l->process->maybe &= l->mask;
		AWAIT(l, until, pid, -pid);
	}
}

/* sigwait(2): the signals are caught meanwhile, and not blocked; the one that comes runs no handler. */
BODY(sigwait_call)
{
	signals wanted = (signals)arguments[0] & every_signal & ~UNBLOCKABLE, old = l->mask;
	int64_t until = arguments[1] < 0 ? NEVER : later(now(), arguments[1]);
	(void)call;
	not_reported(l, "sigwait, sigwaitinfo, sigtimedwait");
	accept_signals(l, wanted);
	turn(l, act_of(l, TRACEHOST_BLOCK, (old & ~wanted) >> 1), (struct how){0});
	l->mask = old & ~wanted;
	struct info info;
	int got = first_accepted(l, until, &info);
	block(l, old);
	accept_no_longer(l, wanted);
	back(l);
	if (got < 0)
		say_error(-got);
	else
		say("ok %lld %lld %lld %lld %lld", (long long)info.signal, (long long)info.code, (long long)info.sender,
			(long long)info.status, (long long)info.address);
}

/* sigpending(2): the model has no such question, so that the signals are met, and posted again. */
BODY(pending)
{
	struct process *p = l->process;
	signals wanted = l->mask, old = l->mask, found = 0, got;
	(void)call, (void)arguments;
	not_reported(l, "sigpending");
	if (p->tracer != 0) {
		say_error(ENOSYS);
		return;
	}
	accept_signals(l, wanted);
	block(l, 0);
	while ((got = user(l)) != 0)
		found |= got;
	block(l, old);
	for (EACH_SIGNAL(number))
		if (found & wanted & BIT(number)) {
			step_of_call(l, (struct step){.op = SEND, .actor = p->pid, .a = number, .which = p->pid}, true);
			nudge(p, number);
		}
	accept_no_longer(l, wanted);
	say("ok %u", found & wanted);
}
