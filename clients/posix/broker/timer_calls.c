/* Time: sleeps, clocks and timers. */
#include <errno.h>
#include "calls.h"

enum { SETITIMER = 83, GETITIMER = 86, TIMER_SETTIME = 237, TIMER_GETTIME = 238 };

/* nanosleep(2) and its kin, in virtual time. */
BODY(sleep_call)
{
	int64_t until = later(now(), arguments[0]);
	enter(l, call->code, NULL);
	while (now() < until)
		if (linger(l, 0, false, until)) {
			say("error %d %lld", EINTR, (long long)(until > now() ? until - now() : 0));
			return;
		}
	finish(l);
	say("ok");
}

/* A look at the clock takes a microsecond. */
BODY(clock_call)
{
	(void)call, (void)arguments;
	not_reported(l, "clock_gettime, gettimeofday");
	table.now = later(now(), 1000);
	others(l);
	stay(l);
	say("ok %lld", (long long)now());
}

/* ---- timers: one is an LWP of the broker's, which the model doesn't have */

enum { TIMERS = 1000 }; /* of a process, and more than the runtime has */
static int timer_tid(const struct process *p, int64_t number)
{
	return (int)(number == 0 ? -p->pid : -TIMERS * p->pid - number % TIMERS);
}

/* The process's timer of this number, while it is set. */
static struct lwp *timer_of(const struct process *p, int64_t number)
{
	for (size_t i = 0; i < table.lwps.count; i++)
		if (table.lwps.at[i]->tid == timer_tid(p, number))
			return table.lwps.at[i];
	return NULL;
}

static struct rung *rung_of(struct process *p, int64_t number)
{
	for (size_t i = 0; i < p->lists.rung.count; i++)
		if (p->lists.rung.at[i].number == number)
			return &p->lists.rung.at[i];
	return NULL;
}

struct left {
	int64_t time, period;
};

static struct left left_of(struct process *p, int64_t number)
{
	const struct lwp *timer = timer_of(p, number);
	const struct rung *rung = rung_of(p, number);
	if (timer == NULL)
		return (struct left){0};
	if (rung != NULL && rung->due)
		return (struct left){rung->every - (now() - rung->at) % rung->every, rung->every};
	int64_t until = timer->until != NEVER ? timer->until : 0;
	return (struct left){until > now() ? until - now() : 0, timer->every};
}

/* getitimer(2), timer_gettime(2): what is left, and the period. */
BODY(timer_left)
{
	(void)call;
	bare_call(l, arguments[0] == 0 ? GETITIMER : TIMER_GETTIME);
	struct left left = left_of(l->process, arguments[0]);
	say("ok %lld %lld", (long long)left.time, (long long)left.period);
}

/* timer_getoverrun(2). */
BODY(overrun)
{
	bare_call(l, call->code);
	const struct rung *rung = rung_of(l->process, arguments[0]);
	int64_t overruns = rung != NULL ? rung->overruns : 0;
	say("ok %lld", (long long)(overruns < INT32_MAX ? overruns : INT32_MAX));
}

/* Whether a signal that was posted is met later. Of SIGCONT that is so if it is blocked, whatever the model keeps. */
static bool stays_pending(const struct process *p, int signal)
{
	if (p->catches & BIT(signal))
		return true;
	for (size_t i = 0; i < p->lists.lwps.count; i++)
		if (!(p->lists.lwps.at[i]->mask & BIT(signal)))
			return false;
	return !(p->ignored & BIT(signal)) && (signal == CONT || !(DISCARDED & BIT(signal)));
}

static struct rung *begin_rung(struct lwp *timer, int64_t until)
{
	struct process *p = timer->process;
	struct rung *rung = rung_of(p, timer->number);
	if (rung == NULL) {
		APPEND(&p->lists.rung, (struct rung){0});
		rung = &p->lists.rung.at[p->lists.rung.count - 1];
	}
	*rung =
		(struct rung){.number = timer->number, .signal = timer->signal, .at = until, .every = timer->every, .topic = timer->tid};
	rung->due = stays_pending(p, timer->signal);
	return rung;
}

/* While the signal of a timer with a number is pending, it isn't posted again: its overruns. */
static int64_t wait_until_met(struct lwp *timer, int64_t until)
{
	begin_rung(timer, until);
	for (;;) { /* the list may move meanwhile */
		const struct rung *rung = rung_of(timer->process, timer->number);
		if (rung == NULL || !rung->due)
			return rung != NULL ? rung->overruns : 0;
		AWAIT(timer, NEVER, timer->tid);
	}
}

/* Its time has come; `l` sends the signal: the timer itself, or who takes it back. */
static void post_ring(struct lwp *l, struct lwp *timer)
{
	struct process *p = timer->process;
	if (timer->signal == 0)
		return;
	step_of_call(l, (struct step){.op = SEND, .actor = p->pid, .a = timer->signal, .which = p->pid}, true);
	timer->rings = false;
	send_info(p, (struct info){.signal = timer->signal, .code = timer->number != 0 ? BSD_SI_TIMER : BSD_SI_KERNEL});
	count_signal(p, timer->signal);
	nudge(p, timer->signal);
}

/* The life of a timer. */
void ring(struct lwp *timer)
{
	struct process *p = timer->process;
	for (int64_t until = timer->first;; until = later(until, timer->every)) {
		while (now() < until)
			await(timer, until, 0, NULL);
		if (!p->live)
			return;
		timer->rings = true;
		count_ring(timer);
		post_ring(timer, timer);
		if (timer->every == 0)
			return;
		if (timer->number != 0 && timer->signal != 0)
			until = later(until, timer->every * wait_until_met(timer, until));
	}
}

static void start_timer(struct process *p, int64_t number, int signal, int64_t nanoseconds, int64_t every)
{
	struct lwp *timer = new_lwp(p, timer_tid(p, number), 0);
	p->lists.lwps.count--; /* it is none of the process's */
	snprintf(timer->asked, sizeof timer->asked, "timer");
	timer->is_timer = true, timer->alive = false;
	timer->number = number, timer->signal = signal, timer->every = timer->ran = every;
	timer->first = timer->until = later(now(), nanoseconds);
	timer->waits = true, timer->seen = table.clock, timer->level = 1;
	into_table(timer);
}

/* alarm(3), setitimer(2), timer_settime(2). */
BODY(timer_call)
{
	struct process *p = l->process;
	int64_t number = arguments[0], signal = arguments[1];
	(void)call;
	if (number < 0 || number >= TIMERS || signal < 0 || signal > 31 || arguments[2] < 0 || arguments[3] < 0)
		foreign_question(l);
	enter(l, number == 0 ? SETITIMER : TIMER_SETTIME, NULL);
	struct left left = left_of(p, number);
	struct lwp *old = timer_of(p, number);
	bool is_over = old != NULL && (old->rings || (old->until != NEVER && old->until <= now()));
	for (size_t i = p->lists.rung.count; i-- > 0;)
		if (p->lists.rung.at[i].number == number)
			TAKE_OUT(&p->lists.rung, i);
	if (old != NULL) {
		out_of_table(old);
		retire(old);
	}
	if (is_over) /* nothing is left of its time, and nobody else would send its signal */
		post_ring(l, old);
	if (arguments[2] != 0)
		start_timer(p, number, (int)signal, arguments[2], arguments[3]);
	finish(l);
	say("ok %lld %lld", (long long)left.time, (long long)left.period);
}
