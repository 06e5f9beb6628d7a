/* ptrace(2), and what its requests change for others. */
#include <errno.h>
#include "calls.h"

/* tools/format classes of requests */
/* clang-format off */
static const uint32_t events =
	TRACEHOST_PTRACE_EXEC | TRACEHOST_PTRACE_SCE | TRACEHOST_PTRACE_SCX | TRACEHOST_PTRACE_FORK |
	TRACEHOST_PTRACE_LWP | TRACEHOST_PTRACE_VFORK;

static bool resumes(int64_t request)
{
	return
		request == TRACEHOST_PT_CONTINUE || request == TRACEHOST_PT_STEP || request == TRACEHOST_PT_DETACH ||
		request == TRACEHOST_PT_TO_SCE || request == TRACEHOST_PT_TO_SCX || request == TRACEHOST_PT_SYSCALL;
}
/* clang-format on */
/* end */

struct request {
	int64_t number, target, data;
	bool lost; /* the target is to go on at address 0 */
};

/* What the model is asked: to continue is to step, if an LWP is marked. It has one that steps at a time. */
static struct request made_of(const struct lwp *l, struct request asked)
{
	const struct process *p = process_of(asked.target);
	if (asked.number != TRACEHOST_PT_CONTINUE || p == NULL || p->tracer != l->process->pid)
		return asked;
	for (size_t i = 0; i < p->lists.lwps.count; i++)
		if (p->lists.lwps.at[i]->to_step)
			return (struct request){TRACEHOST_PT_STEP, p->lists.lwps.at[i]->tid, asked.data, asked.lost};
	return asked;
}

static struct step step_of(const struct lwp *l, int64_t request, int64_t target, int64_t data)
{
	struct step s = {.op = PTRACE, .actor = l->process->pid, .a = request};
	if (request == TRACEHOST_PT_TRACE_ME)
		return s;
	s.which = (uint32_t)target, s.b = (uint32_t)data;
	if (request == TRACEHOST_PT_SET_EVENT_MASK && data & ~(int64_t)events) { /* bits without a name: see below */
		s.a = TRACEHOST_PT_GET_EVENT_MASK;
		s.b = 0, s.bare = true;
	}
	return s;
}

/* Its next instruction stops the LWP, as the processor's trap flag does: the mark stays until then. */
static void mark_step(struct lwp *l, bool to_step)
{
	l->to_step = to_step;
	l->depth = l->level;
}

static bool is_named(const struct process *p, const struct lwp *l, int64_t target)
{
	return l->tid == target || (target == p->pid && l == p->reporting);
}

static void resumed(struct process *p, const struct request *asked, const struct request *made, bool by_instruction)
{
	struct lwp *reporting = p->reporting;
	int64_t data = asked->data;
	forget_news(p->pid);
	for (size_t i = 0; i < p->lists.lwps.count; i++) {
		struct lwp *l = p->lists.lwps.at[i];
		if (asked->number == TRACEHOST_PT_DETACH)
			l->to_step = false;
		if (asked->number == TRACEHOST_PT_STEP && is_named(p, l, asked->target))
			mark_step(l, !options.strict); /* in the model a step is over as the process goes on without one */
		l->lost |= asked->lost && is_named(p, l, asked->target);
		l->stepping = made->number == TRACEHOST_PT_STEP && is_named(p, l, made->target);
		l->traps = l->to_step && by_instruction;
		run.examined += l->traps || (l->to_step && asked->number != TRACEHOST_PT_STEP);
	}
	bool is_caught = data > 0 && data < 32 && is_of(p, reporting) && (p->catches | reporting->accepting) & BIT(data);
	if (is_caught && !options.strict)
		reporting->passed |= BIT(data); /* the model says no more of it; a kernel runs the handler */
	if (asked->number == TRACEHOST_PT_DETACH)
		p->tracer = 0;
	change(p->pid);
}

/* What a request that was done changes here. */
static void changed_by(struct process *caller, const struct request *asked, const struct request *made)
{
	int64_t number = asked->number, data = asked->data;
	if (number == TRACEHOST_PT_TRACE_ME) {
		caller->tracer = caller->parent, caller->reports = false;
		return;
	}
	struct process *p = process_of(asked->target);
	if (p == NULL)
		return;
	change(-p->pid);
	if (number == TRACEHOST_PT_ATTACH) {
		p->tracer = caller->pid, p->reporting = p->lists.lwps.at[0], p->reports = false;
		child_news(p, BSD_CLD_TRAPPED, STOP);
	} else if (resumes(number))
		resumed(p, asked, made, caller->examines);
	p->reports |= number >= TRACEHOST_PT_TO_SCE && number <= TRACEHOST_PT_SYSCALL;
	if (number == TRACEHOST_PT_SET_EVENT_MASK)
		p->reports = data & (TRACEHOST_PTRACE_SCE | TRACEHOST_PTRACE_SCX);
	if (number == TRACEHOST_PT_KILL)
		reap(&p, 1, KILL);
	else if (resumes(number) && data != 0)
		reap(&p, 1, data);
}

/* A request that the model has. The last argument: the target is to go on at address 0. */
BODY(ptrace_call)
{
	struct request asked = {arguments[0], int_of(l, arguments[1]), int_of(l, arguments[2]), arguments[3]}, made = made_of(l, asked);
	struct numbers numbers = {0};
	reply r = {.kind = TRACEHOST_ERROR, .error = EINVAL};
	struct step s = step_of(l, made.number, made.target, made.data);
	enter(l, call->code, NULL);
	if (is_request(asked.number)) {
		r = step_of_call(l, s, true);
		if (r.kind == TRACEHOST_LWPS)
			numbers_of_last(&numbers);
		if (r.kind == TRACEHOST_OK)
			changed_by(l->process, &asked, &made);
		else if (s.bare && r.kind == TRACEHOST_MASK)
			r = (reply){.kind = TRACEHOST_ERROR, .error = EINVAL}; /* what the model refuses first comes first */
	}
	finish(l);
	const struct lwp *other = r.kind == TRACEHOST_INFO && r.event == 1 && !options.strict ? lwp_of(r.lwp) : NULL;
	if (other != NULL && other->replaced != 0 && r.flags & TRACEHOST_PL_FLAG_SCX)
		r.code = other->replaced;
	say_requested(&r, other != NULL ? &other->info : &(struct info){0}, &numbers);
}

/* PT_READ_D and its kin: the host's number of a process whose LWPs the model would count for this debugger. */
BODY(memory)
{
	struct step s = {.op = PTRACE, .actor = l->process->pid, .a = TRACEHOST_PT_GETNUMLWPS, .which = (uint32_t)arguments[0]};
	(void)call;
	reply r = step_of_call(l, s, false);
	if (r.kind == TRACEHOST_ERROR) {
		say_reply(&r);
		return;
	}
	const struct process *p = process_of(arguments[0]);
	l->process->examines |= arguments[1] != 0 && !options.strict;
	for (size_t i = 0; p != NULL && arguments[1] != 0 && i < p->lists.lwps.count; i++)
		p->lists.lwps.at[i]->altered |= MEMORY;
	if (p != NULL)
		say("ok %d", p->real);
	else
		say_error(EINVAL);
}

/* ---- registers, which the model doesn't have. The model only answers who may ask, and about which LWP */

/* The stopped LWP that a debugger means, and how the model describes it; else NULL, and the answer is said. */
static struct lwp *stopped_lwp(struct lwp *l, int64_t target, reply *r)
{
	*r = step_of_call(
		l, (struct step){.op = PTRACE, .actor = l->process->pid, .a = TRACEHOST_PT_LWPINFO, .which = (uint32_t)target}, false);
	if (r->kind == TRACEHOST_ERROR) {
		say_reply(r);
		return NULL;
	}
	struct lwp *other = lwp_of(r->lwp);
	if (other != NULL && !(other->foreign || other->born))
		return other;
	say_error(EINVAL);
	return NULL;
}

enum { GENERAL }; /* of the kinds of registers, as the runtime has them */

static struct lwp *examined_lwp(struct lwp *l, int64_t target, reply *r)
{
	if (!options.strict)
		return stopped_lwp(l, target, r);
	say_error(EINVAL);
	return NULL;
}

/* PT_GETREGS and its kin: where the thread has them in its memory. */
BODY(registers_call)
{
	reply r;
	char line[32];
	struct lwp *other = examined_lwp(l, arguments[0], &r);
	(void)call;
	if (other == NULL)
		return;
	l->process->examines = true;
	run.examined++;
	if (r.flags & TRACEHOST_PL_FLAG_SCE)
		snprintf(line, sizeof line, "registers %u", r.code);
	else
		snprintf(line, sizeof line, "registers -1");
	say("ok %d %s %d", other->process->real, aside(other, line), other->lost);
}

/* PT_SETREGS and its kin: the thread takes over what is there now. */
BODY(apply)
{
	reply r;
	char line[32];
	struct lwp *other = examined_lwp(l, arguments[0], &r);
	(void)call;
	if (other == NULL)
		return;
	snprintf(line, sizeof line, "apply %lld", (long long)arguments[1]);
	aside(other, line);
	if (arguments[1] == GENERAL)
		other->lost = false; /* what it has now counts */
	other->altered |= arguments[2] ? REGISTERS : 0;
	if (arguments[1] == GENERAL && r.flags & TRACEHOST_PL_FLAG_SCE)
		other->denied = (uint32_t)arguments[3] != r.code;
	say("ok");
}

/* PT_SETSTEP, PT_CLEARSTEP. */
BODY(setstep)
{
	reply r;
	struct lwp *other = examined_lwp(l, arguments[0], &r);
	(void)call;
	if (other == NULL)
		return;
	l->process->examines = true;
	mark_step(other, arguments[1]);
	say("ok");
}

/* The host's numbers of the process and the thread of a stopped LWP. */
BODY(thread)
{
	reply r;
	const struct lwp *other = stopped_lwp(l, arguments[0], &r);
	(void)call;
	if (other != NULL)
		say("ok %d %d", other->process->real, other->real);
}
