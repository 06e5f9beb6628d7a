#include "turns.h"
#include <signal.h>
#include <string.h>
#include "run.h"

enum { ESRCH_ = 3 };
static const signals traps = BIT(4) | BIT(TRAP) | BIT(8) | BIT(10) | BIT(SEGV);

/* ---- a step */

struct step act_of(const struct lwp *l, int act, uint32_t argument)
{
	return (struct step){.op = TURN, .act = act, .actor = l->tid, .a = argument};
}

struct step entry_of(const struct lwp *l, int call, uint32_t argument)
{
	return (struct step){.op = TURN, .act = TRACEHOST_ENTER, .call = call, .actor = l->tid, .a = argument};
}

/* Makes a step, and keeps it for the record unless it had no effect and was only a look. */
reply make(struct step s, bool keep)
{
	reply r = look(s);
	run.steps++;
	if (keep && r.kind != TRACEHOST_HELD)
		keep_step(s, &r);
	return r;
}

reply step_of_call(struct lwp *l, struct step s, bool keep)
{
	for (;;) {
		if (run.inside)
			others(l);
		reply r = make(s, keep);
		if (r.kind != TRACEHOST_HELD)
			return r;
		AWAIT(l, NEVER, -l->process->pid);
	}
}

/* ---- signals that FreeBSD discards as they are posted. A traced process of the model keeps them, and stops */

bool is_discarded(const struct process *p, int signal)
{
	if (options.strict || signal == CONT || has(traps, signal))
		return false;
	return has(p->ignored, signal) || (has(DISCARDED, signal) && !has(p->catches, signal));
}

static struct info of_kernel(int signal) { return (struct info){.signal = signal, .code = BSD_SI_KERNEL}; }

/* What is known of a signal that is met, as it is met; if nobody has sent it, the kernel has. */
static struct info info_of(struct lwp *l, int signal)
{
	struct info known = of_kernel(signal);
	if (has(l->has_sent, signal)) {
		known = l->sent[signal];
		l->has_sent &= ~BIT(signal);
	} else if (has(l->process->has_sent, signal)) {
		known = l->process->sent[signal];
		l->process->has_sent &= ~BIT(signal);
	}
	return known;
}

/* The tracer takes the stop and lets the process go on, before anybody else may look. */
static void pass_over(struct lwp *l, int signal)
{
	struct process *p = l->process, *tracer = live_process(p->tracer);
	int64_t stepping = 0;
	info_of(l, signal); /* nobody gets it */
	if (tracer == NULL)
		return;
	for (size_t i = p->lists.lwps.count; i-- > 0;)
		if (p->lists.lwps.at[i]->stepping)
			stepping = p->lists.lwps.at[i]->tid;
	const struct step steps[] = {
		{.op = WAIT4, .actor = tracer->pid, .which = p->pid}, {.op = PTRACE,
																  .actor = tracer->pid,
																  .a = stepping ? TRACEHOST_PT_STEP : TRACEHOST_PT_CONTINUE,
																  .which = stepping ? stepping : p->pid}};
	for (size_t i = 0; i < sizeof steps / sizeof steps[0]; i++)
		while (make(steps[i], true).kind == TRACEHOST_HELD) {
			AWAIT(l, NEVER, -tracer->pid, -p->pid);
			if (p->tracer != tracer->pid)
				return;
		}
	run.skipped++;
	tracer->chld_spurious = true;
}

/* Whether a SIGCHLD that is caught came only of stops that were passed over. */
static bool is_spurious(struct process *p, int signal)
{
	if (signal != CHLD)
		return false;
	bool spurious = p->chld_spurious && !p->chld_due;
	p->chld_spurious = p->chld_due = false;
	return spurious;
}

/* The signal isn't pending any more: what a timer has counted meanwhile are its overruns. */
static void met_signal(struct process *p, int signal)
{
	for (size_t i = 0; i < p->lists.rung.count; i++) {
		struct rung *rung = &p->lists.rung.at[i];
		if (!rung->due || rung->signal != signal)
			continue;
		rung->due = false;
		rung->overruns = (now() - rung->at) / rung->every;
		change(rung->topic);
	}
}

void send_info(struct process *p, struct info info)
{
	if (info.signal < 1 || info.signal > 31)
		return;
	p->sent[info.signal] = info;
	p->has_sent |= BIT(info.signal);
}

void send_info_to_lwp(struct lwp *l, struct info info)
{
	if (info.signal < 1 || info.signal > 31)
		return;
	l->sent[info.signal] = info;
	l->has_sent |= BIT(info.signal);
}

static void stopped(struct lwp *l, const reply *r)
{
	struct process *p = l->process;
	met_signal(p, r->signal);
	l->info = r->flags == 0 ? info_of(l, r->signal) : (struct info){0};
	p->reporting = l;
	p->stops = true;
	p->maybe &= ~BIT(r->signal);
	child_news(p, p->tracer == 0 ? BSD_CLD_STOPPED : BSD_CLD_TRAPPED, r->signal);
}

/* ---- the program's handlers */

static struct step disposition(const struct process *p, int signal, uint32_t action)
{
	return (struct step){.op = SIGACTION, .actor = p->pid, .a = signal, .b = action};
}

static void note_disposition(struct process *p, int signal, uint32_t action, const struct caught *caught)
{
	p->catches &= ~BIT(signal), p->ignored &= ~BIT(signal);
	if (caught != NULL) {
		p->caught[signal] = *caught;
		p->catches |= BIT(signal);
	} else if (action == TRACEHOST_IGNORE)
		p->ignored |= BIT(signal);
}

reply dispose(struct lwp *l, int signal, uint32_t action, const struct caught *caught)
{
	reply r = step_of_call(l, disposition(l->process, signal, action), true);
	if (r.kind == TRACEHOST_OK)
		note_disposition(l->process, signal, action, caught);
	return r;
}

bool dispose_at_once(struct lwp *l, int signal, uint32_t action, const struct caught *caught)
{
	reply r = make(disposition(l->process, signal, action), true);
	if (r.kind == TRACEHOST_OK)
		note_disposition(l->process, signal, action, caught);
	return r.kind != TRACEHOST_HELD;
}

void block(struct lwp *l, signals mask)
{
	mask &= ~UNBLOCKABLE;
	if (mask == l->mask)
		return;
	turn(l, act_of(l, TRACEHOST_BLOCK, mask >> 1), (struct how){0});
	if (l->mask & ~mask & BIT(CONT))
		met_signal(l->process, CONT); /* which the model doesn't keep */
	l->mask = mask;
}

/* The program's handler runs, with its mask. What is known of the signal comes along: of the same number another one may be
 * sent before the handler begins. */
static void caught_signal(struct lwp *l, int signal, struct info info, struct met *met)
{
	struct process *p = l->process;
	signals old = l->mask;
	p->maybe &= ~BIT(signal);
	if (met != NULL) {
		met->all |= BIT(signal);
		if (met->accepted == 0 && l->accepting & BIT(signal))
			met->accepted = signal, met->info = info;
	}
	if (!(p->catches & BIT(signal)) || l->accepting & BIT(signal))
		return;
	struct caught action = p->caught[signal];
	if (action.reset)
		dispose(l, signal, TRACEHOST_DEFAULT, NULL);
	block(l, old | action.mask | (action.no_defer ? 0 : BIT(signal)));
	run_handler(l, info);
	block(l, old);
}

/* ---- turns */

/* A fault's signal can't be ignored or blocked. */
static void let_fault(struct lwp *l, int signal)
{
	if (l->process->ignored & BIT(signal))
		dispose(l, signal, TRACEHOST_DEFAULT, NULL);
	block(l, l->mask & ~BIT(signal));
}

/* Whether it would go on at address 0 now. */
static bool is_lost(const struct lwp *l, const struct step *wanted)
{
	return l->lost && (wanted->act == TRACEHOST_COMPUTE || (wanted->act == TRACEHOST_RAISE && wanted->a == 0));
}

/* What other threads and the debugger have left for the LWP's next turn in user mode. */
static void before_turn(struct lwp *l, const struct step *wanted, struct met *met)
{
	bool raises = wanted->act == TRACEHOST_RAISE;
	while (l->passed) {
		int signal = __builtin_ctz(l->passed);
		l->passed &= ~BIT(signal);
		run.passed++;
		caught_signal(l, signal, l->info.signal == signal ? l->info : of_kernel(signal), met);
	}
	if (is_lost(l, wanted))
		let_fault(l, SEGV);
	while (l->injected.count > 0 && !raises) {
		int signal = l->injected.at[0];
		TAKE_OUT(&l->injected, 0);
		turn(l, act_of(l, TRACEHOST_RAISE, signal), (struct how){.met = met});
	}
}

/* Of a turn that hasn't done its act: whether it ends here. */
static bool is_over(struct lwp *l, const reply *r, const struct how *how)
{
	switch (r->kind) {
	case TRACEHOST_HELD: AWAIT(l, NEVER, -l->process->pid); return false;
	case TRACEHOST_STOPPED:
		if (r->flags == 0 && is_discarded(l->process, r->signal)) {
			pass_over(l, r->signal);
			return false;
		}
		stopped(l, r);
		return how->done != NULL && how->done(l, r);
	case TRACEHOST_CAUGHT:
		met_signal(l->process, r->signal);
		if (!is_spurious(l->process, r->signal))
			caught_signal(l, r->signal, info_of(l, r->signal), how->met);
		return false;
	case TRACEHOST_ENDED: ended(l, r->status);
	case TRACEHOST_ERROR:
		if (r->error == ESRCH_)
			broken("LWP %d has ended unseen", l->tid);
		return true;
	default: return true;
	}
}

/* What the LWP does at its turn: nothing is at address 0; and if it steps by an instruction, that comes before its act. */
static struct step present_act(struct lwp *l, const struct step *wanted, bool defers)
{
	if (is_lost(l, wanted)) {
		send_info_to_lwp(l, (struct info){.signal = SEGV, .code = SEGV_MAPERR});
		return act_of(l, TRACEHOST_RAISE, SEGV);
	}
	return defers && l->traps ? act_of(l, TRACEHOST_RAISE, 0) : *wanted;
}

/* A turn, until its act was done, or ended in a stop that `done` takes; `met` gets the signals met before. One that steps
 * by an instruction only looks if it `defers`. */
reply turn(struct lwp *l, struct step wanted, struct how how)
{
	bool leaves = wanted.act == TRACEHOST_LEAVE_CALL;
	for (;;) {
		if (!leaves)
			before_turn(l, &wanted, how.met);
		if (run.inside && !how.at_once)
			others(l);
		how.at_once = false;
		if (l->passed && !leaves)
			continue; /* a debugger has let it go on with a signal since */
		bool faults = is_lost(l, &wanted);
		struct step s = present_act(l, &wanted, how.defers);
		bool probe = s.act == TRACEHOST_RAISE && s.a == 0;
		reply r = make(s, !probe);
		if (probe && (r.kind == TRACEHOST_STOPPED || r.kind == TRACEHOST_CAUGHT || r.kind == TRACEHOST_ENDED))
			keep_step(s, &r);
		if (is_over(l, &r, &how) && !faults)
			return r;
	}
}

static bool at_entry(struct lwp *l, const reply *r)
{
	(void)l;
	return r->flags & TRACEHOST_PL_FLAG_SCE;
}

static bool always(struct lwp *l, const reply *r)
{
	(void)l, (void)r;
	return true;
}

static bool by_call(struct lwp *l, const reply *r)
{
	bool over = l->stepping && !l->traps && r->signal == TRAP && r->flags == 0;
	l->stepping = l->stepping && !over, l->to_step = l->to_step && !over;
	return over;
}

static bool by_instruction(struct lwp *l, const reply *r)
{
	bool over = l->stepping && r->signal == TRAP && r->flags == 0;
	l->stepping = l->stepping && !over, l->traps = l->traps && !over, l->to_step = l->to_step && !over;
	return over;
}

/* Nothing of a call is done before the debugger that has seen its entry lets the LWP go on. In a call that is no act. */
static void stay_at_entry(struct lwp *l)
{
	l->at_entry = true, l->altered = 0, l->denied = false;
	do
		AWAIT(l, NEVER, -l->process->pid);
	while (make(act_of(l, TRACEHOST_RAISE, 0), false).kind == TRACEHOST_HELD);
	l->at_entry = false;
	if (l->altered == 0 || l->begins)
		return;
	if (strcmp(aside(l, "anew"), "1") == 0) { /* the thread makes the call anew, and asks for it */
		l->anew = l->begun = true;
		longjmp(*l->act, 1);
	}
	if (l->denied) { /* it would be made all the same */
		blame(l, "");
		failed("denied %d %d %s", l->process->pid, l->tid, l->call->of);
	}
	if (l->altered & REGISTERS)
		remark("calls that don't take the registers that a debugger sets at their entry: %s", l->call->of);
}

/* Into a call; a stop with PL_FLAG_SCE is at its entry. */
void enter_call(struct lwp *l, int call, uint32_t argument, struct met *met)
{
	bool is_in = l->begun && call == TRACEHOST_OTHER;
	if (l->begun && !is_in)
		leave(l);
	l->begun = false;
	if (is_in)
		return;
	l->replaced = 0;
	reply r = turn(l, entry_of(l, call, argument), (struct how){.done = at_entry, .met = met});
	/* it is in another one, which only a thread that is cancelled leaves so */
	if (r.kind == TRACEHOST_ERROR && call != TRACEHOST_THR_EXIT)
		foreign_question(l);
	if (r.kind == TRACEHOST_STOPPED)
		stay_at_entry(l);
}

/* Into a call that the model knows only by its number. */
void enter(struct lwp *l, int code, struct met *met)
{
	enter_call(l, TRACEHOST_OTHER, code, met);
	l->entered = code;
}

/* Out of the call; a stop there is at the call's exit. */
reply leave(struct lwp *l)
{
	l->entered = -1;
	return turn(l, act_of(l, TRACEHOST_LEAVE_CALL, 0), (struct how){.done = always});
}

/* The LWP has made its step, and isn't the one that steps in the model: it meets the signal of a trap. */
static void trap(struct lwp *l)
{
	l->to_step = l->traps = false;
	if (l->process->tracer == 0)
		return;
	let_fault(l, TRAP);
	turn(l, act_of(l, TRACEHOST_RAISE, TRAP), (struct how){.at_once = true});
	turn(l, act_of(l, TRACEHOST_RAISE, 0), (struct how){.at_once = true});
}

/* Back in user mode, where signals are met. */
void user_met(struct lwp *l, struct met *met)
{
	reply r = turn(l, act_of(l, TRACEHOST_COMPUTE, 0), (struct how){.done = by_call, .met = met, .defers = true});
	if (r.kind == TRACEHOST_STOPPED)
		turn(l, act_of(l, TRACEHOST_RAISE, 0), (struct how){.met = met}); /* no act: does it go on? */
	else if (l->to_step && !l->traps)
		trap(l);
}

signals user(struct lwp *l)
{
	struct met met = {0};
	user_met(l, &met);
	return met.all;
}

/* One that steps by an instruction has made it. */
void stepped(struct lwp *l)
{
	if (l->stepping)
		turn(l, act_of(l, TRACEHOST_COMPUTE, 0), (struct how){.done = by_instruction, .at_once = true});
	if (l->to_step)
		trap(l);
}

/* In user mode, and no call is made: the LWP stays here while its process is stopped. */
void stay(struct lwp *l)
{
	touch_news(l->process->pid);
	if (l->process->tracer != 0 || l->process->stops)
		turn(l, act_of(l, TRACEHOST_RAISE, 0), (struct how){0});
}

/* Out of the call, and back in user mode. */
void finish(struct lwp *l)
{
	leave(l);
	back(l);
}

/* A traced process meets signals, and stops, after its call has returned: with its own registers and results. */
bool lands(const struct lwp *l) { return l->process->tracer != 0 && !options.strict; }

/* Back in user mode, from a call that is over. */
void back(struct lwp *l)
{
	l->lands = lands(l);
	if (!l->lands)
		user(l);
}

/* ---- waiting in a call */

bool linger(struct lwp *l, int64_t topic, bool restarts, int64_t until)
{
	struct process *p = l->process;
	struct met met = {0};
	int code = l->entered;
	if (!is_due(l))
		await(l, until, topic == 0 ? 1 : 2, (int64_t[]){p->pid, topic});
	if (!is_due(l) || code < 0)
		return false;
	p->maybe &= l->mask;
	leave(l);
	signals caught = user(l);
	if (l->cancelled || interrupts(p, caught, restarts))
		return true;
	enter(l, code, &met);
	if (!interrupts(p, met.all, restarts))
		return false;
	finish(l);
	return true;
}

/* Whether one of these handlers has ended a call that another one may restart. */
bool interrupts(const struct process *p, signals met, bool restarts)
{
	for (EACH_SIGNAL(number))
		if (met & BIT(number) && (!restarts || !(p->catches & BIT(number)) || !p->caught[number].restart))
			return true;
	return false;
}

/* Whether a signal may be for the LWP to meet. */
bool is_due(const struct lwp *l)
{
	touch_news(l->process->pid);
	return l->passed || l->injected.count || l->cancelled || l->process->maybe & ~l->mask;
}
